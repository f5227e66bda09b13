// Reads the document at the standard input many times by libxml2's SAX2, in all 100,000,000 bytes. The handlers do
// nothing, so no tree is made.
//
//     cc -O2 sax.c $(xml2-config --cflags --libs)
#include <libxml/parser.h>
#include <stdio.h>
#include <string.h>

int main(void) {
    static char bytes[262145];
    size_t len = fread(bytes, 1, sizeof bytes, stdin);
    if (len == 0 || len == sizeof bytes) return 3;
    xmlSAXHandler handler;
    memset(&handler, 0, sizeof handler);
    handler.initialized = XML_SAX2_MAGIC;
    for (size_t i = 0; i < 100000000 / len; i++)
        if (xmlSAXUserParseMemory(&handler, NULL, bytes, (int)len) != 0) return 1;
    return 0;
}
