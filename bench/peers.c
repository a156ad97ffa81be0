/* What bench/peers.sh times inside one process, so many times over: a receipt through the library of vp, or each line of
 * a file through an outside library. Made with one of -DVP, -DQRENCODE, -DZINT: peers ROUNDS FILE, and behind them for
 * zint the symbology, and whether the symbol is drawn. It prints how many bytes, modules or dots there were. */
#include <stdio.h>
#include <stdlib.h>
#include <string.h>

#ifdef VP
#include <vp.h>

/* Prints all of a receipt, and answers how many bytes of paper there are. */
static size_t work(char *data, size_t length, char **words)
{
    static uint8_t paper[1 << 20];
    vp printer = {0};
    vp_progress done;
    size_t at = 0, put = 0;
    (void)words;
    if (vp_new(VP_WHOLE_RECEIPT, NULL, 0, NULL, 0, &printer) != VP_OK)
        exit(1);
    do {
        vp_step(&printer, (uint8_t *)data + at, length - at, paper, sizeof paper, &done);
        at += done.taken;
        put += done.put;
    } while (done.state == VP_ROOM);
    if (done.state != VP_MORE)
        exit(1);
    vp_free(&printer);
    return put;
}
#else
static size_t symbol(const char *text, char **words);

/* Makes the symbol of each line. */
static size_t work(char *data, size_t length, char **words)
{
    size_t put = 0;
    for (char *at = data; at < data + length;) {
        char *end = memchr(at, '\n', length - (size_t)(at - data));
        *end = 0;
        put += symbol(at, words);
        *end = '\n';
        at = end + 1;
    }
    return put;
}
#endif

#ifdef QRENCODE
#include <qrencode.h>

/* A symbol of bytes at level M, in the smallest version. */
static size_t symbol(const char *text, char **words)
{
    QRcode *made = QRcode_encodeData((int)strlen(text), (const unsigned char *)text, 0, QR_ECLEVEL_M);
    size_t size;
    (void)words;
    if (made == NULL)
        exit(1);
    size = (size_t)made->width * (size_t)made->width;
    QRcode_free(made);
    return size;
}
#endif

#ifdef ZINT
#include <zint.h>

/* A symbol, encoded alone or drawn too, a byte a dot, two dots a module, without its text. */
static size_t symbol(const char *text, char **words)
{
    static struct zint_symbol *made;
    size_t size;
    if (made == NULL)
        made = ZBarcode_Create();
    ZBarcode_Clear(made);
    made->symbology = atoi(words[0]);
    made->output_options |= OUT_BUFFER_INTERMEDIATE;
    made->show_hrt = 0;
    if (atoi(words[1])) {
        if (ZBarcode_Encode_and_Buffer(made, (const unsigned char *)text, 0, 0) >= ZINT_ERROR)
            exit(1);
        size = (size_t)made->bitmap_width * (size_t)made->bitmap_height;
    } else {
        if (ZBarcode_Encode(made, (const unsigned char *)text, 0) >= ZINT_ERROR)
            exit(1);
        size = (size_t)made->width;
    }
    return size;
}
#endif

int main(int count, char **words)
{
    static char data[1 << 20];
    size_t put = 0, length;
    FILE *file = count < 3 ? NULL : fopen(words[2], "rb");
    if (file == NULL)
        return 1;
    length = fread(data, 1, sizeof data, file);
    fclose(file);
    for (int left = atoi(words[1]); left > 0; left--)
        put += work(data, length, words + 3);
    printf("%zu\n", put);
    return 0;
}
