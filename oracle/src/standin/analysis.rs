//! Stands in for `src/analysis.rs`: the two types that `frame.rs` names.

#[derive(Debug, Clone, Copy, PartialEq, Eq)]
pub enum MpegVersion {
    Mpeg1,
    Mpeg2,
    Mpeg25,
}

#[derive(Debug, Clone, Copy, PartialEq, Eq)]
pub enum ChannelMode {
    Stereo,
    JointStereo,
    DualChannel,
    Mono,
}

impl ChannelMode {
    pub fn channel_count(self) -> usize {
        if self == ChannelMode::Mono {
            1
        } else {
            2
        }
    }
}
