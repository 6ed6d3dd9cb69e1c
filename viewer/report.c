/*
 * The desk's viewer: the inspector's report, one page of HTML on the standard output.
 *
 *   report NAME [trace.tsv=SUM] [flash.bin=SUM] [eeprom.bin=SUM]
 *
 * NAME heads the report. The files that are named are read from the present folder, and each one's SHA-256 is told as
 * given; one that is not named is not there. The same words and files give the same bytes. tools/report calls this.
 *
 * Exit status: 0 whatever the answer; 1 the library broke its word; 2 a file, the command or the output is at fault.
 */
#include "html.h"
#include "played.h"
#include "sections.h"

#include <errno.h>
#include <stdio.h>
#include <stdlib.h>
#include <string.h>

enum { SUM_DIGITS = 64 };

static _Noreturn void usage(void)
{
    fputs("usage: report NAME [trace.tsv=SUM] [flash.bin=SUM] [eeprom.bin=SUM]\n", stderr);
    exit(2);
}

/* Notes the sum of the file that a word names. */
static void take_word(struct desk *desk, const char *word)
{
    int which;

    for (which = 0; which < FILES; which++) {
        struct file *file = &desk->files[which];
        size_t len = strlen(file->name);

        if (strncmp(word, file->name, len) != 0 || word[len] != '=')
            continue;
        file->sum = word + len + 1;
        if (strlen(file->sum) != SUM_DIGITS || strspn(file->sum, "0123456789abcdef") != SUM_DIGITS)
            usage();
        return;
    }
    usage();
}

static void put_report(const struct desk *desk)
{
    /* Nothing is loaded, from nowhere: the page is all there is. */
    put("<!DOCTYPE html>\n<html lang=\"en\">\n<head>\n<meta charset=\"utf-8\"/>\n"
        "<meta http-equiv=\"Content-Security-Policy\" content=\"default-src 'none'; style-src 'unsafe-inline'\"/>\n"
        "<meta name=\"viewport\" content=\"width=device-width\"/>\n<title>");
    put_name(desk->folder);
    put(": replay of a memory trace</title>\n");
    put_style(desk);
    put("</head>\n<body>\n<header>\n<h1>Replay of a memory trace</h1>\n<p>Folder <strong id=\"folder\">");
    put_name(desk->folder);
    put("</strong></p>\n</header>\n");
    put_verdict(desk);
    put_basis(desk);
    put_map(desk);
    put_contents(desk);
    put_records(desk);
    put("</body>\n</html>\n");
}

int main(int argc, char **argv)
{
    static struct desk desk = {.files = {{.name = "trace.tsv"}, {.name = "flash.bin"}, {.name = "eeprom.bin"}}};
    int word;

    if (argc < 2)
        usage();
    desk.folder = argv[1];
    for (word = 2; word < argc; word++)
        take_word(&desk, argv[word]);
    replay_here(&desk);
    if (shows(&desk))
        note_played(&desk);
    put_report(&desk);
    if (fflush(stdout) != 0 || ferror(stdout))
        give_up("standard output", strerror(errno));
    return 0;
}
