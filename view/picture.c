/*
 * The picture of a day: reads what the day program prints for its minutes and writes it as
 * stepped lines, one SVG of one or more A4 pages. The input of the day is looked at only for its
 * roles and its lines. Status: 0 done, 1 no day, 2 misuse.
 */
#include "picture.h"

#include <stdio.h>
#include <string.h>

/* Writes the beginning: the size, on screens and as sheets of paper, and the hatching. */
static void write_start(const struct plan *plan)
{
    printf("<?xml version=\"1.0\" encoding=\"UTF-8\"?>\n"
           "<svg xmlns=\"http://www.w3.org/2000/svg\" width=\"297mm\" height=\"%lumm\""
           " viewBox=\"0 0 %d %lu\" font-family=\"sans-serif\">\n",
           (unsigned long)plan->pages * PAGE_HIGH / 100, PAGE_WIDE,
           (unsigned long)plan->pages * PAGE_HIGH);
    printf("<title>When the roles are open</title>\n"
           "<style>@page { size: A4 landscape; margin: 0 }</style>\n"
           "<defs><pattern id=\"both\" width=\"100\" height=\"100\" patternUnits=\"userSpaceOnUse\""
           " patternTransform=\"rotate(45)\"><path d=\"M0 50H100\" stroke=\"#000\""
           " stroke-width=\"22\"/></pattern></defs>\n"
           "<rect width=\"%d\" height=\"%lu\" fill=\"#fff\"/>\n",
           PAGE_WIDE, (unsigned long)plan->pages * PAGE_HIGH);
}

/* Writes the picture. */
static void write_picture(const struct board *board, const struct source *source)
{
    struct plan plan;
    size_t i;

    make_plan(board, &plan);
    write_start(&plan);
    write_head(board, &plan, 1);
    for (i = 0; i < plan.count; i++) {
        printf("<g transform=\"translate(0 %lu)\">\n",
               (unsigned long)plan.panel[i].page * PAGE_HIGH);
        write_panel(board, &plan, &plan.panel[i]);
        printf("</g>\n");
    }
    write_table(board, &plan);
    for (i = 0; i < plan.pages; i++) {
        write_foot(source, &plan, i);
    }
    printf("</svg>\n");
}

/* Reads the input and the day and writes its picture; the further words of the call are given. */
static int draw(const struct names *names, uint64_t apart, char **words)
{
    struct source source;
    struct day day;
    struct board board;

    if (!read_source(&source, words)) {
        return 1;
    }
    if (!names_fit(names, "picture", source.roles)) {
        return 2;
    }
    if (!read_day(&day)) {
        return 1;
    }
    choose_lanes(&board, &day, names, apart);
    make_table(&board);
    write_picture(&board, &source);
    if (fflush(stdout) != 0 || ferror(stdout)) {
        fprintf(stderr, "box: picture: the picture could not be written\n");
        return 1;
    }
    return 0;
}

/* The picture of the day on standard input; with --try only the options are tested. */
int main(int count, char **words)
{
    uint64_t apart = 0;
    struct call call;
    int at = take_call(&call, "picture", count, words);

    if (at == 0) {
        return 2;
    }
    if (at + 1 < count && strcmp(words[at], "--apart") == 0) {
        if (!take_apart(words[at + 1], &call.names, &apart)) {
            return 2;
        }
        at += 2;
    }
    if (count - at != (call.try ? 0 : 3)) {
        fprintf(stderr, "usage: picture [--try] [--roles 3=Adjust,7=Release] [--apart 3,7]"
                        " INPUT NAME SUM < FRAMES > day.svg\n");
        return 2;
    }
    return call.try ? 0 : draw(&call.names, apart, words + at);
}
