// Pictures by TagLib, whose Python module knows only texts, for tests/covers.py: taglib write FILE KEY < PICTURE, taglib read FILE KEY > PICTURE.
#include <cstdio>
#include <string>

#include <apetag.h>
#include <mpegfile.h>

using namespace TagLib;

int main(int n, char **words) {
    if (n != 4) return 2;
    const std::string what = words[1];
    MPEG::File file(words[2], false);
    const String key(words[3]);
    if (!file.isValid()) return 1;
    if (what == "write") {
        ByteVector picture;
        for (int c; (c = getchar()) != EOF;) picture.append((char)c);
        APE::Item item;
        item.setKey(key);
        item.setType(APE::Item::Binary);
        item.setBinaryData(picture);
        file.APETag(true)->setItem(key, item);
        return file.save(MPEG::File::APE, File::StripNone) ? 0 : 1;
    }
    if (what != "read" || file.APETag() == nullptr) return 1;
    const APE::Item item = file.APETag()->itemListMap()[key.upper()];
    if (item.type() != APE::Item::Binary) return 1;
    const ByteVector picture = item.binaryData();
    return fwrite(picture.data(), 1, picture.size(), stdout) == picture.size() ? 0 : 1;
}
