/* bench_well_formed against libexpat with empty handlers, on the same text in one run. Prints a line for each text:
   name, bytes, answer of each, best milliseconds of CPU time of each, MB/s of each, ratio (above 1: ours is faster). */
#include <expat.h>
#include <stdbool.h>
#include <stdint.h>
#include <stdio.h>
#include <stdlib.h>
#include <string.h>
#include <time.h>

bool bench_well_formed(const uint8_t *text, size_t length);

static double now(void) {
    struct timespec t;
    clock_gettime(CLOCK_PROCESS_CPUTIME_ID, &t);
    return t.tv_sec * 1e3 + t.tv_nsec / 1e6;
}

static void XMLCALL start(void *u, const char *n, const char **a) { (void)u; (void)n; (void)a; }
static void XMLCALL end(void *u, const char *n) { (void)u; (void)n; }
static void XMLCALL data(void *u, const char *s, int l) { (void)u; (void)s; (void)l; }

static bool expat(const char *text, size_t length) {
    XML_Parser p = XML_ParserCreate(0);
    XML_SetElementHandler(p, start, end);
    XML_SetCharacterDataHandler(p, data);
    bool ok = XML_Parse(p, text, (int)length, 1) == XML_STATUS_OK;
    XML_ParserFree(p);
    return ok;
}

static void measure(const char *name, const char *text, size_t length, int rounds) {
    double ours = 1e9, theirs = 1e9;
    bool a = false, b = false;
    for (int i = 0; i < rounds; i++) {
        double t = now();
        a = bench_well_formed((const uint8_t *)text, length);
        double u = now();
        b = expat(text, length);
        double v = now();
        if (u - t < ours) ours = u - t;
        if (v - u < theirs) theirs = v - u;
    }
    double mb = length / 1e6;
    printf("%-28s %9zu  %d %d  %8.2f ms %8.2f ms  %7.0f %7.0f MB/s  %5.2f\n", name, length, a, b, ours, theirs,
           mb / (ours / 1e3), mb / (theirs / 1e3), theirs / ours);
    fflush(stdout);
}

static char *text;
static size_t used, room;

static void put(const char *s) {
    size_t n = strlen(s);
    if (room < used + n + 1) text = realloc(text, room = (used + n + 1) * 2);
    memcpy(text + used, s, n);
    used += n;
}

static void fill(const char *before, const char *again, const char *after, size_t size) {
    used = 0;
    put(before);
    while (used < size) put(again);
    put(after);
}

static void brains(size_t size) {
    used = 0;
    put("<?xml version=\"1.0\" encoding=\"UTF-8\"?>\n<CIFTI Version=\"2\">\n <Matrix>\n"
        "  <MatrixIndicesMap AppliesToMatrixDimension=\"1\" IndicesMapToDataType=\"CIFTI_INDEX_TYPE_BRAIN_MODELS\">\n");
    unsigned x = 1;
    while (used < size) {
        put("   <BrainModel IndexOffset=\"0\" IndexCount=\"29696\" ModelType=\"CIFTI_MODEL_TYPE_SURFACE\""
            " BrainStructure=\"CIFTI_STRUCTURE_CORTEX_LEFT\" SurfaceNumberOfVertices=\"32492\">\n    <VertexIndices>");
        for (int i = 0; i < 29696; i++) {
            char w[16];
            x = x * 1103515245u + 12345u;
            sprintf(w, "%u ", (x >> 8) % 1000000);
            put(w);
        }
        put("</VertexIndices>\n   </BrainModel>\n");
    }
    put("  </MatrixIndicesMap>\n </Matrix>\n</CIFTI>\n");
}

int main(int count, char **files) {
    size_t big = 16777216;
    printf("%-28s %9s  %s  %11s %11s  %7s %7s\n", "text", "bytes", "ok", "ours", "expat", "ours", "expat");
    for (int i = 1; i < count; i++) {
        FILE *f = fopen(files[i], "rb");
        if (!f) continue;
        fseek(f, 0, SEEK_END);
        size_t n = ftell(f);
        rewind(f);
        char *s = malloc(n);
        if (fread(s, 1, n, f) == n) measure(strrchr(files[i], '/') ? strrchr(files[i], '/') + 1 : files[i], s, n, 15);
        fclose(f);
        free(s);
    }
    brains(8 << 20);
    measure("brain models", text, used, 15);
    fill("<a>", "caf\xc3\xa9 \xe2\x82\xac na\xc3\xafve \xc5\xbc\xc3\xb3\xc5\x82w ", "</a>", 8 << 20);
    measure("text of many scripts", text, used, 7);
    fill("<a>", "x &lt; y &amp;&amp; ", "</a>", 8 << 20);
    measure("references", text, used, 7);
    used = 0;
    put("<a>");
    while (used < big) {
        put("<t");
        for (int i = 0; i < 16; i++) {
            char w[80];
            sprintf(w, " nnnnnnnnnnnnnnnnnnnnnnnnnnnnnnnnnnnnnnnnnnnnnnnnnnnnnnnnnnnnnn%02d=\"\"", i);
            put(w);
        }
        put("/>");
    }
    put("</a>");
    measure("16 attributes of 64 bytes", text, used, 5);
    fill("<a><!--", "x", "--></a>", big);
    measure("a comment", text, used, 5);
    fill("", "<a>", "", big);
    measure("<a><a><a>..", text, used, 5);
    fill("<a>", "]", "</a>", big);
    measure("]]]]..", text, used, 5);
    fill("<r>", "<a/>", "</r>", big);
    measure("<a/><a/>..", text, used, 5);
    fill("<r>", "<a></a>", "</r>", big);
    measure("<a></a><a></a>..", text, used, 5);
    fill("<r>", "<!---->", "</r>", big);
    measure("<!----><!---->..", text, used, 5);
    fill("<r>", "<![CDATA[]]>", "</r>", big);
    measure("<![CDATA[]]><![CDATA[]]>..", text, used, 5);
    fill("<r>", "<![CDATA[1]]>", "</r>", big);
    measure("<![CDATA[1]]><![CDATA[1]]>..", text, used, 5);
    fill("<r><![CDATA[", "]", "]]></r>", big);
    measure("<![CDATA[]]]]..", text, used, 5);
    fill("<r><![CDATA[", "1234567 ", "]]></r>", big);
    measure("CDATA of numbers", text, used, 5);
    fill("<!DOCTYPE ", "x", "><r/>", big);
    measure("a DOCTYPE", text, used, 5);
    fill("", " ", "<r/>", big);
    measure("blanks", text, used, 5);
    return 0;
}
