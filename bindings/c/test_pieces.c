/* Tests of a text in pieces, from C: however it is cut, the answer and every place of counts and tables are those of
 * desk_read; what is refused after the end and where something is lent too short, and that nothing is altered then;
 * areas that were used, or altered, before. Ends with status 1 at the first that fails. Reads the texts from the files
 * that are named, the first of them that of case A. */
#include "expect.h"

/* what stands in a place before it is written */
#define OTHER 0xa5

#define DONE word(DESK_DONE, 0)
#define ENDED word(2, 0)

/* A text in pieces: its words and its area. */
struct so_far {
    uint32_t words[DESK_TEXT_WORDS];
    uint8_t area[DESK_AREA];
};

#define WORDS(s) (s)->words, DESK_TEXT_WORDS
#define AREA(s) (s)->area, DESK_AREA

/* Counts and tables, beside those that are lent to the end. */
struct tables {
    uint32_t counts[DESK_COUNTS];
    uint8_t facts[DESK_FACTS];
    uint32_t costs[DESK_COSTS];
    uint32_t shares[DESK_SHARES];
};

/* What desk_read says of the text that is tried, and leaves; and tables as they are before they are written. */
static desk_word whole_told;
static struct tables whole, others;

static void read_whole(const uint8_t *bytes, size_t len)
{
    whole = others;
    whole_told = desk_read(bytes, len, whole.counts, DESK_COUNTS, whole.facts, DESK_FACTS, whole.costs, DESK_COSTS,
                           whole.shares, DESK_SHARES);
}

/* The lent counts and tables are these. */
static int left_as(const struct tables *t)
{
    return memcmp(counts, t->counts, sizeof counts) == 0 && memcmp(facts, t->facts, sizeof facts) == 0 &&
           memcmp(costs, t->costs, sizeof costs) == 0 && memcmp(shares, t->shares, sizeof shares) == 0;
}

static void lend_others(void)
{
    memset(counts, OTHER, sizeof counts), memset(facts, OTHER, sizeof facts);
    memset(costs, OTHER, sizeof costs), memset(shares, OTHER, sizeof shares);
}

static int same(const struct so_far *s, const struct so_far *t) { return memcmp(s, t, sizeof *s) == 0; }

static void take(struct so_far *s, const uint8_t *piece, size_t len)
{
    EXPECT(desk_take_piece(WORDS(s), AREA(s), piece, len) == DONE);
}

/* The end is that of the whole text: the answer, and every place. The first of the words says so then, and nothing else
 * of words and area moves. */
static void ends_as_whole(struct so_far *s)
{
    static struct so_far left;
    left = *s;
    lend_others();
    EXPECT(left.words[0] == 0 && desk_end_text(WORDS(s), AREA(s), TASK) == whole_told);
    EXPECT(left_as(&whole) && (whole_told == DONE || left_as(&others)));
    left.words[0] = 1;
    EXPECT(same(s, &left));
}

/* After the end a piece and a second end are refused, and nothing is altered; 8 comes before that. */
static void stays_ended(struct so_far *s)
{
    static struct so_far left;
    left = *s;
    lend_others();
    EXPECT(desk_take_piece(WORDS(s), AREA(s), text, text_len) == ENDED);
    EXPECT(desk_take_piece(WORDS(s), AREA(s), WILD8, 0) == ENDED);
    EXPECT(desk_end_text(WORDS(s), AREA(s), TASK) == ENDED);
    EXPECT(desk_take_piece(WORDS(s), s->area, DESK_AREA - 1, text, text_len) == SHORT);
    EXPECT(desk_end_text(WORDS(s), s->area, DESK_AREA - 1, TASK) == SHORT);
    EXPECT(same(s, &left) && left_as(&others));
}

/* In pieces of so many bytes, each after some empty ones, in an area that holds something else before. */
static void in_pieces_of(size_t bytes, int empty, const uint8_t *from, size_t len)
{
    static struct so_far s;
    memset(&s, 0xff, sizeof s);
    EXPECT(desk_begin_text(WORDS(&s)) == DONE);
    for (size_t at = 0; at < len; at += bytes) {
        for (int i = 0; i < empty; i++)
            take(&s, WILD8, 0);
        take(&s, from + at, len - at < bytes ? len - at : bytes);
    }
    ends_as_whole(&s);
    stays_ended(&s);
}

/* A generator of numbers below a limit. */
static uint32_t by_chance(uint32_t below)
{
    static uint64_t state = 1;
    state = state * UINT64_C(6364136223846793005) + UINT64_C(1442695040888963407);
    return (uint32_t)((state >> 33) % below);
}

static void cut_by_chance(const uint8_t *from, size_t len)
{
    static struct so_far s;
    EXPECT(desk_begin_text(WORDS(&s)) == DONE); /* in the area of the text before */
    for (size_t at = 0, bytes; at < len; at += bytes)
        take(&s, from + at, bytes = by_chance(len - at < 40 ? (uint32_t)(len - at) + 1 : 40));
    ends_as_whole(&s);
}

static void cut_in_two(size_t at, const uint8_t *from, size_t len)
{
    static struct so_far s;
    EXPECT(desk_begin_text(WORDS(&s)) == DONE);
    take(&s, from, at);
    take(&s, from + at, len - at);
    ends_as_whole(&s);
}

/* A text at every cut. */
static void all_cuts(const uint8_t *from, size_t len)
{
    read_whole(from, len);
    for (size_t at = 0; at <= len; at++)
        cut_in_two(at, from, len);
    for (int empty = 0; empty < 3; empty++) {
        in_pieces_of(1, empty, from, len);
        in_pieces_of(7, empty, from, len);
        in_pieces_of(DESK_TEXT, empty, from, len);
    }
    for (int i = 0; i < 20; i++)
        cut_by_chance(from, len);
}

/* Each place of the text with each of some bytes, and the text ended there: read in single bytes, and cut there. */
static void damaged(void)
{
    static const uint8_t bytes[] = "0129,:;/-=\nx\xff";
    static uint8_t other[DESK_TEXT];
    memcpy(other, text, text_len);
    for (size_t at = 0; at < text_len; at++) {
        for (size_t i = 0; i < sizeof bytes; i++) { /* the 0 behind them too */
            other[at] = bytes[i];
            read_whole(other, text_len);
            cut_in_two(at, other, text_len);
            cut_in_two(at + 1, other, text_len);
            in_pieces_of(1, 0, other, text_len);
        }
        other[at] = text[at];
        read_whole(text, at);
        cut_in_two(at / 2, text, at);
        in_pieces_of(1, 1, text, at);
    }
}

/* Texts with a fault: its number and its line, and the text from its first byte on. */
static const struct {
    desk_word number, line;
    const char *text;
} faults[] = {
    {2, 1, ""},
    {2, 1, "edition=1;vars=1"},
    {2, 3, "edition=2\nvars=1\ndom=2,\n"},
    {3, 1, "edition=3\nvars=1\n"},
    {3, 2, "edition=1\nvars=9\ndom=2\n"},
    {3, 6, "edition=2\nvars=1\ndom=2\ninit=0\ngoal=0:1\nquota=1025\nops=1\n"},
    {4, 5, "edition=1\nvars=2\ndom=2,2\ninit=0,0\ngoal=1:1,0:1\nops=1\n"},
    {5, 8, "edition=1\nvars=1\ndom=2\ninit=0\ngoal=-\nops=0\nmaps=1\nmap=1,1\nshare=-\n"},
    {6, 7, "edition=1\nvars=1\ndom=2\ninit=0\ngoal=-\nops=1\nop=5;0:0;0:1\nmaps=1\nmap=0,1\nshare=6\n"},
    {7, 8,
     "edition=1\nvars=5\ndom=8,8,8,8,8\ninit=0,0,0,0,0\ngoal=-\nops=0\nmaps=1\n"
     "map=0,1,2,3,4,5,6,7/0,1,2,3,4,5,6,7/0,1,2,3,4,5,6,7/0,1,2,3,4,5,6,7/0,1,2,3,4,5,6,7\nshare=-\n"},
    {18, 7, "edition=1\nvars=1\ndom=2\ninit=0\ngoal=-\nops=1\nop=5;0:0;0:0\nmaps=1\nmap=0,1\nshare=5\n"},
    {18, 8, "edition=2\nvars=1\ndom=2\ninit=0\ngoal=-\nquota=1\nops=1\nop=5;0:0;0:0;1\nmaps=1\nmap=0,1\nshare=5\n"},
};

#define FAULTS (sizeof faults / sizeof faults[0])

static void faults_told(void)
{
    for (size_t i = 0; i < FAULTS; i++) {
        all_cuts((const uint8_t *)faults[i].text, strlen(faults[i].text));
        EXPECT(whole_told == word(faults[i].number, faults[i].line));
    }
}

/* 1 comes before any fault, from one byte too many on, wherever the fault and the cuts are: here each text begins with
 * one of the faults, or has none, and goes on with zeros. */
static void too_long(void)
{
    static uint8_t zeros[3 * DESK_TEXT];
    static const size_t sizes[] = {1, 97, 4096, DESK_TEXT - 1, DESK_TEXT, DESK_TEXT + 1, 3 * DESK_TEXT};
    for (size_t i = 0; i <= FAULTS; i++) {
        const char *begins = i < FAULTS ? faults[i].text : (const char *)text;
        size_t len = i < FAULTS ? strlen(begins) : text_len;
        memset(zeros, 0, sizeof zeros);
        memcpy(zeros, begins, len);
        for (size_t n = 0; n < sizeof sizes / sizeof sizes[0]; n++) {
            read_whole(zeros, DESK_TEXT);
            EXPECT(desk_is_refusal(whole_told) && whole_told != word(1, 0));
            in_pieces_of(sizes[n], 1, zeros, DESK_TEXT);
            read_whole(zeros, DESK_TEXT + 1);
            EXPECT(whole_told == word(1, 0));
            in_pieces_of(sizes[n], 1, zeros, DESK_TEXT + 1);
            in_pieces_of(sizes[n], 0, zeros, sizeof zeros);
        }
    }
}

/* The end, one of the parts that it is lent so many places too short. */
enum part { OF_WORDS, OF_AREA, OF_COUNTS, OF_FACTS, OF_COSTS, OF_SHARES };

static desk_word end_with(struct so_far *s, enum part part, size_t by)
{
    size_t len[] = {DESK_TEXT_WORDS, DESK_AREA, DESK_COUNTS, DESK_FACTS, DESK_COSTS, DESK_SHARES};
    len[part] -= by;
    return desk_end_text(s->words, len[OF_WORDS], s->area, len[OF_AREA], counts, len[OF_COUNTS], facts, len[OF_FACTS],
                         costs, len[OF_COSTS], shares, len[OF_SHARES]);
}

/* What is lent too short for a call: 8, nothing is altered, and it isn't the end. */
static void short_parts_of(struct so_far *s)
{
    static struct so_far left;
    left = *s;
    lend_others();
    for (size_t by = 1; by <= DESK_TEXT_WORDS; by++) {
        EXPECT(desk_begin_text(s->words, DESK_TEXT_WORDS - by) == SHORT);
        EXPECT(desk_take_piece(s->words, DESK_TEXT_WORDS - by, AREA(s), text, text_len) == SHORT);
        EXPECT(end_with(s, OF_WORDS, by) == SHORT);
    }
    for (size_t by = 1; by <= DESK_AREA; by++) {
        EXPECT(desk_take_piece(WORDS(s), s->area, DESK_AREA - by, text, text_len) == SHORT);
        EXPECT(end_with(s, OF_AREA, by) == SHORT);
    }
    for (size_t by = 1; by <= DESK_COUNTS; by++)
        EXPECT(end_with(s, OF_COUNTS, by) == SHORT);
    EXPECT(end_with(s, OF_FACTS, 1) == SHORT && end_with(s, OF_FACTS, DESK_FACTS) == SHORT);
    EXPECT(end_with(s, OF_COSTS, 1) == SHORT && end_with(s, OF_COSTS, DESK_COSTS) == SHORT);
    EXPECT(end_with(s, OF_SHARES, 1) == SHORT && end_with(s, OF_SHARES, DESK_SHARES) == SHORT);
    EXPECT(desk_begin_text(WILD32, 0) == SHORT && desk_begin_text(NULL, 0) == SHORT);
    EXPECT(desk_take_piece(WILD32, 0, AREA(s), text, text_len) == SHORT);
    EXPECT(desk_take_piece(WORDS(s), WILD8, 0, text, text_len) == SHORT);
    EXPECT(desk_end_text(WILD32, 0, WILD8, 0, WILD32, 0, WILD8, 0, WILD32, 0, WILD32, 0) == SHORT);
    EXPECT(same(s, &left) && left_as(&others));
}

/* The text goes on after each of them, and ends well; after the end they are refused the same. */
static void short_parts(void)
{
    static struct so_far s;
    read_whole(text, text_len);
    EXPECT(DESK_TEXT_WORDS == 20 && DESK_AREA == 8192 && desk_begin_text(WORDS(&s)) == DONE);
    short_parts_of(&s);
    take(&s, text, text_len / 2);
    short_parts_of(&s);
    take(&s, text + text_len / 2, text_len - text_len / 2);
    short_parts_of(&s);
    ends_as_whole(&s);
    short_parts_of(&s);
    stays_ended(&s);
}

/* Of parts that are a place longer the place stays, but that of a table is 0, as desk_read leaves it. */
static void longer_parts(void)
{
    static uint32_t words[DESK_TEXT_WORDS + 1], n[DESK_COUNTS + 1], c[DESK_COSTS + 1], h[DESK_SHARES + 1];
    static uint8_t area[DESK_AREA + 1], f[DESK_FACTS + 1];
    memset(words, OTHER, sizeof words), memset(area, OTHER, sizeof area);
    memset(n, OTHER, sizeof n), memset(f, OTHER, sizeof f), memset(c, OTHER, sizeof c), memset(h, OTHER, sizeof h);
    EXPECT(desk_begin_text(words, DESK_TEXT_WORDS + 1) == DONE);
    EXPECT(desk_take_piece(words, DESK_TEXT_WORDS + 1, area, DESK_AREA + 1, text, text_len) == DONE);
    EXPECT(desk_end_text(words, DESK_TEXT_WORDS + 1, area, DESK_AREA + 1, n, DESK_COUNTS + 1, f, DESK_FACTS + 1, c,
                         DESK_COSTS + 1, h, DESK_SHARES + 1) == DONE);
    read_whole(text, text_len);
    EXPECT(memcmp(n, whole.counts, sizeof whole.counts) == 0 && memcmp(f, whole.facts, sizeof whole.facts) == 0);
    EXPECT(memcmp(c, whole.costs, sizeof whole.costs) == 0 && memcmp(h, whole.shares, sizeof whole.shares) == 0);
    EXPECT(words[DESK_TEXT_WORDS] == 0xa5a5a5a5 && area[DESK_AREA] == OTHER && n[DESK_COUNTS] == 0xa5a5a5a5);
    EXPECT(f[DESK_FACTS] == 0 && c[DESK_COSTS] == 0 && h[DESK_SHARES] == 0);
}

/* Another text, of edition 2. */
static const uint8_t small[] = "edition=2\nvars=1\ndom=2\ninit=0\ngoal=0:1\nquota=7\nops=0\nmaps=1\nmap=0,1\nshare=-\n";
#define SMALL_LEN (sizeof small - 1)

/* Two texts that come by turns, each in its own words and area. */
static void by_turns(void)
{
    static struct so_far a, b;
    EXPECT(desk_begin_text(WORDS(&a)) == DONE && desk_begin_text(WORDS(&b)) == DONE);
    for (size_t at = 0; at < text_len || at < SMALL_LEN; at++) { /* an empty piece where one of them is over */
        take(&a, text + at, at < text_len);
        take(&b, small + (at < SMALL_LEN ? at : 0), at < SMALL_LEN);
    }
    read_whole(text, text_len);
    ends_as_whole(&a);
    read_whole(small, SMALL_LEN);
    EXPECT(whole_told == DONE);
    ends_as_whole(&b);
}

/* A text that is begun where another one was left, at each of its places, or had ended. */
static void begun_anew(void)
{
    static struct so_far s;
    read_whole(small, SMALL_LEN);
    for (size_t at = 0; at <= text_len; at++) {
        EXPECT(desk_begin_text(WORDS(&s)) == DONE);
        take(&s, text, at);
        EXPECT(desk_begin_text(WORDS(&s)) == DONE);
        take(&s, small, SMALL_LEN);
        ends_as_whole(&s);
    }
}

/* As long as no byte was taken the area may hold anything, also after empty pieces and where the text has no byte. */
static void any_area_before(void)
{
    static struct so_far s;
    EXPECT(desk_begin_text(WORDS(&s)) == DONE);
    for (int byte = 0; byte < 256; byte += 51) {
        take(&s, WILD8, 0);
        memset(s.area, byte, sizeof s.area);
    }
    take(&s, text, text_len);
    read_whole(text, text_len);
    ends_as_whole(&s);
    memset(s.area, 0xff, sizeof s.area);
    EXPECT(desk_begin_text(WORDS(&s)) == DONE);
    read_whole(WILD8, 0);
    ends_as_whole(&s);
}

/* Whatever words and area are handed in, a piece and the end have their answer. A refused piece alters nothing, and a
 * refused end but that the text has ended. */
static void answered(const struct so_far *was)
{
    static struct so_far s, left;
    uint32_t ended = was->words[0];
    s = *was;
    EXPECT(desk_take_piece(WORDS(&s), AREA(&s), text, by_chance((uint32_t)text_len)) == (ended ? ENDED : DONE));
    EXPECT(ended ? same(&s, was) : s.words[0] == 0);
    left = s;
    lend_others();
    desk_word told = desk_end_text(WORDS(&s), AREA(&s), TASK);
    EXPECT(desk_is_refusal(told) ? left_as(&others) : told == DONE);
    EXPECT(!ended || told == ENDED);
    left.words[0] = ended ? ended : 1;
    EXPECT(same(&s, &left));
}

/* Words and areas that no pieces have left: all by chance, or some places of a text that was left somewhere. */
static void changed(void)
{
    static struct so_far s;
    for (int round = 0; round < 20000; round++) {
        uint32_t most = round % 3 == 0 ? 0x7fffffff : round % 3 == 1 ? 100 : 9;
        EXPECT(desk_begin_text(WORDS(&s)) == DONE);
        take(&s, text, by_chance((uint32_t)text_len + 1));
        for (uint32_t i = by_chance(2) ? 3 : DESK_TEXT_WORDS; i > 0; i--)
            s.words[by_chance(DESK_TEXT_WORDS)] = by_chance(most) + by_chance(most);
        for (uint32_t i = by_chance(2) ? 3 : DESK_AREA; i > 0; i--)
            s.area[by_chance(DESK_AREA)] = (uint8_t)by_chance(256);
        answered(&s);
    }
}

int main(int argc, char **argv)
{
    memset(&others, OTHER, sizeof others);
    if (argc < 2 || !text_from(argv[1])) {
        fprintf(stderr, "test_pieces TEXT-OF-CASE-A [TEXT ..]\n");
        return 2;
    }
    faults_told();
    too_long();
    short_parts();
    longer_parts();
    by_turns();
    begun_anew();
    any_area_before();
    changed();
    for (int i = 1; i < argc; i++) {
        EXPECT(text_from(argv[i]));
        all_cuts(text, text_len);
        if (text_len < 400)
            damaged();
    }
    printf("C: %d expectations on texts in pieces hold, %d texts cut everywhere\n", tried, argc - 1);
    return 0;
}
