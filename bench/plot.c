/* The plot of the benchmark as SVG: ratios above, nanoseconds a record below. */
#include "plot.h"
#include "tasks.h"

#include <math.h>
#include <stdio.h>

enum { WIDTH = 1120, PANEL = 330, LEFT = 60, TOP = 60, HEIGHT = 2 * PANEL + TOP };
enum { BARS_MOST = 4, CHART = PANEL - 110 };

static const char *const COLOURS[BARS_MOST] = {"#4477aa", "#ee7733", "#228833", "#aa3377"};

/* One panel: groups of bars over a common scale, each bar with its value. */
struct panel {
    FILE *file;
    double top;       /* of the chart, in pixels */
    double low, high; /* the values at its foot and its top */
    int log;          /* a logarithmic scale */
    int groups, group;
    const char *format;
};

static double height_of(const struct panel *p, double value)
{
    double part = p->log ? log(value / p->low) / log(p->high / p->low)
                         : (value - p->low) / (p->high - p->low);
    return CHART * fmin(fmax(part, 0), 1);
}

static void text(FILE *f, double x, double y, const char *style, const char *words)
{
    fprintf(f, "<text x=\"%.1f\" y=\"%.1f\" %s>%s</text>\n", x, y, style, words);
}

static void line_at(const struct panel *p, double value, const char *style)
{
    char label[32];
    double y = p->top + CHART - height_of(p, value);
    fprintf(p->file, "<line x1=\"%d\" x2=\"%d\" y1=\"%.1f\" y2=\"%.1f\" %s/>\n", LEFT, WIDTH - 20,
            y, y, style);
    snprintf(label, sizeof label, "%g", value);
    text(p->file, LEFT - 6, y + 4, "text-anchor=\"end\"", label);
}

static void bars(struct panel *p, const char *name, const double *values, const int *colours,
                 int count)
{
    double room = (double)(WIDTH - 20 - LEFT) / p->groups, wide = room * 0.8 / BARS_MOST;
    double middle = LEFT + room * (p->group++ + 0.5), x = middle - wide * count / 2;
    char label[32];
    for (int i = 0; i < count; i++, x += wide) {
        double h = height_of(p, values[i]);
        fprintf(p->file,
                "<rect x=\"%.1f\" y=\"%.1f\" width=\"%.1f\" height=\"%.1f\" fill=\"%s\"/>\n", x + 1,
                p->top + CHART - h, wide - 2, h, COLOURS[colours[i]]);
        snprintf(label, sizeof label, p->format, values[i]);
        text(p->file, x + wide / 2, p->top + CHART - h - 4,
             "text-anchor=\"middle\" font-size=\"10\"", label);
    }
    text(p->file, middle, p->top + CHART + 18, "text-anchor=\"middle\"", name);
}

static void legend(const struct panel *p, const char *const *names, int count)
{
    double x = LEFT;
    for (int i = 0; i < count; i++, x += 225) {
        double y = p->top + CHART + 34;
        fprintf(p->file, "<rect x=\"%.1f\" y=\"%.1f\" width=\"12\" height=\"12\" fill=\"%s\"/>\n",
                x, y, COLOURS[i]);
        text(p->file, x + 18, y + 10, "", names[i]);
    }
}

/* What the first panel shows, for each way. */
static const struct {
    const char *name;
    enum kind kind;
    size_t blocks;
} SHOWN[] = {
    {"expand a key", EXPAND_KEY, 0},
    {"encrypt a block", ENCRYPT_BLOCK, 0},
    {"decrypt a block", DECRYPT_BLOCK, 0},
    {"seal 24", ENCRYPT_BOOK, SMALL_BOOK},
    {"open 24", DECRYPT_BOOK, SMALL_BOOK},
    {"seal 4,088", ENCRYPT_BOOK, LARGEST_BOOK},
    {"open 4,088", DECRYPT_BOOK, LARGEST_BOOK},
    {"note of 64", CRYPT_NOTE, SHORT_NOTE},
    {"note of 16,384", CRYPT_NOTE, LONGEST_NOTE},
};
enum { SHOWN_COUNT = sizeof SHOWN / sizeof SHOWN[0] };

static void draw_ratios(FILE *f)
{
    static const char *const ways[BARS_MOST] = {"way 1, byte tables", "way 2, word tables",
                                                "way 3, by the rules", "no key, so no way"};
    static const int colours[BARS_MOST] = {0, 1, 2, 3};
    const struct task *page = find_task(PAGE, LARGEST_SHEET, 0, 0);
    double page_ratio = median_ratio(page->ns[LIBRARY], page->ns[PLAIN]);
    double values[SHOWN_COUNT][WAYS], high = fmax(1.5, ceil(page_ratio * 2) / 2);
    for (int i = 0; i < SHOWN_COUNT; i++)
        for (int w = 0; w < WAYS; w++) {
            const struct task *t = find_task(SHOWN[i].kind, SHOWN[i].blocks, 16, (uint64_t)w + 1);
            values[i][w] = median_ratio(t->ns[LIBRARY], t->ns[PLAIN]);
            high = fmax(high, ceil(values[i][w] * 2) / 2);
        }
    struct panel p = {f, TOP, 0, high, 0, SHOWN_COUNT + 1, 0, "%.2f"};
    text(f, LEFT, TOP - 26, "font-weight=\"bold\"",
         "Time of the library over time of plain C (1 is equal, lower is faster), a 16-byte key "
         "and its words; a page has none");
    for (double at = 0; at <= high; at += 0.5)
        line_at(&p, at,
                at == 1 ? "stroke=\"#333333\" stroke-dasharray=\"5 3\"" : "stroke=\"#dddddd\"");
    for (int i = 0; i < SHOWN_COUNT; i++)
        bars(&p, SHOWN[i].name, values[i], colours, WAYS);
    bars(&p, "page of 1,024", &page_ratio, colours + WAYS, 1);
    legend(&p, ways, BARS_MOST);
}

static void way_bars(struct panel *p, const char *name, uint64_t way)
{
    static const int colours[BARS_MOST] = {0, 1, 2, 3};
    const struct task *e = find_task(ENCRYPT_BOOK, LARGEST_BOOK, 16, way);
    const struct task *d = find_task(DECRYPT_BOOK, LARGEST_BOOK, 16, way);
    double values[BARS_MOST] = {task_ns(e, LIBRARY), task_ns(e, PLAIN), task_ns(d, LIBRARY),
                                task_ns(d, PLAIN)};
    bars(p, name, values, colours, BARS_MOST);
}

static void draw_times(FILE *f, const struct scale *scales, size_t scale_count)
{
    static const char *const names[BARS_MOST] = {
        "library seals",
        "plain C seals, OpenSSL encrypts",
        "library opens",
        "plain C opens, OpenSSL decrypts",
    };
    static const int colours[2] = {1, 3};
    struct panel p = {f, TOP + PANEL, 1, 10000, 1, WAYS + (int)scale_count, 0, "%.0f"};
    text(f, LEFT, TOP + PANEL - 26, "font-weight=\"bold\"",
         "Nanoseconds a record in the largest book, words of a 16-byte key (logarithmic; OpenSSL's "
         "ciphers for scale)");
    for (double ns = 1; ns <= 10000; ns *= 10)
        line_at(&p, ns, "stroke=\"#dddddd\"");
    way_bars(&p, "way 1", 1);
    way_bars(&p, "way 2", 2);
    way_bars(&p, "way 3", 3);
    for (size_t i = 0; i < scale_count; i++)
        bars(&p, scales[i].name, (const double[]){scales[i].encrypt_ns, scales[i].decrypt_ns},
             colours, 2);
    legend(&p, names, BARS_MOST);
}

int plot(const char *path, const struct scale *scales, size_t scale_count)
{
    FILE *f = fopen(path, "w");
    if (f == NULL)
        return 0;
    fprintf(f,
            "<svg xmlns=\"http://www.w3.org/2000/svg\" viewBox=\"0 0 %d %d\" "
            "font-family=\"sans-serif\" font-size=\"12\">\n"
            "<rect width=\"%d\" height=\"%d\" fill=\"white\"/>\n",
            WIDTH, HEIGHT, WIDTH, HEIGHT);
    draw_ratios(f);
    draw_times(f, scales, scale_count);
    fprintf(f, "</svg>\n");
    return fclose(f) == 0;
}
