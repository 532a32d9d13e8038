/* sketch_claim [--explain] [FILE]: reads a sketch and a claim from FILE or standard input, and answers as `sketch verify` does.
 *
 * This file shares no line with the program, nor with sketch_claim.py beside it. It was written from docs/LANGUAGE.md, whose
 * sentences stand in quotes at the rules that they give. Its parts: answers, lines and words, numbers and names, the sketch,
 * the claim, the steps, the constraints, the signs. All numbers are whole and nothing is rounded: README.md says how large
 * they get. All that is read stands in tables of a fixed size, and no function calls itself.
 *
 * Build: cc -std=c99 -O2 -o sketch_claim sketch_claim.c (GCC or Clang, where whole numbers of 128 bits are). */
#include <inttypes.h>
#include <stdbool.h>
#include <stdint.h>
#include <stdio.h>
#include <stdlib.h>
#include <string.h>

__extension__ typedef __int128 wide;

enum {
    MOST_BYTES = 1048576,
    MOST_LINE = 200, /* bytes, without the line feed and one carriage return */
    MOST_WORDS = MOST_LINE / 2 + 1,
    MOST_NAME = 16,
    MOST_ELEMENTS = 2000,
    MOST_CONSTRAINTS = 4000,
    MOST_PINS = 16,
    MOST_STEPS = MOST_CONSTRAINTS / 2, /* each leaves two clusters fewer, so the last of so many can't be taken */
    MOST_MICROMETRES = 1000000000,
    MOST_RATIO = 10000,
    NANOMETRES = 1000, /* in a micrometre */
};

static const int64_t billion = 1000000000, most_place = (int64_t)1 << 60, most_tolerance = (int64_t)1 << 62;

/* ---- Answers ---- */

enum status { VERIFIED = 0, REFUSED = 1, USAGE = 2, READ_FAULT = 3, WRITE_FAULT = 4, FAILS = 9 };

static const char *const code_words[] = {
    "", "header", "word", "shape", "name", "name-taken", "unknown", "kind", "number", "zero", "same", "drawn-flat",
    "variable-radius", "too-many-elements", "too-many-constraints", "line-too-long", "no-end", "after-end", "empty", "not-ascii",
    "too-long"};

enum code { E1 = 1, E2, E3, E4, E5, E6, E7, E8, E9, E10, E11, E12, E13, E14, E15, E16, E17, E18, E19, E20 };

static bool explains;
static long line_number;

/* Ends with the status, or with 4 where what was printed can't be written. */
static void finish(int status) { exit(fflush(stdout) || ferror(stdout) ? WRITE_FAULT : status); }

static void refuse(enum code code) {
    printf("refused line %ld E%d %s\n", line_number, code, code_words[code]);
    finish(REFUSED);
}

/* What a line has to be: else it is refused with the code. */
static void demand(bool is_so, enum code code) {
    if (!is_so) refuse(code);
}

static void fail(const char *what, int number) {
    printf("verify fails %s%d\n", what, number);
    finish(FAILS);
}

static void fail_at(const char *what, const char *name) {
    printf("verify fails %s %s\n", what, name);
    finish(FAILS);
}

static void print_wide(wide value) {
    char digits[40];
    int place = sizeof digits;
    wide rest = value < 0 ? -value : value;
    digits[--place] = '\0';
    do digits[--place] = (char)('0' + (int)(rest % 10));
    while ((rest /= 10) > 0);
    printf("%s%s", value < 0 ? "-" : "", digits + place);
}

/* ---- Lines and words ---- */

static char text[MOST_BYTES + 1]; /* room for one byte too many, or for a zero behind the last line */
static size_t text_length, next_line_start;
static char *line;
static size_t line_length;
static char *words[MOST_WORDS];
static int word_count;

/* "A text is split at each line feed. A piece behind the last line feed is a line only where it isn't empty." "One carriage
 * return at the end of a line is dropped before all else." */
static bool next_line(void) {
    if (next_line_start == text_length) return false;
    line = text + next_line_start;
    char *feed = memchr(line, '\n', text_length - next_line_start);
    char *stop = feed ? feed : text + text_length;
    next_line_start = (size_t)(stop - text) + (feed != NULL);
    line_length = (size_t)(stop - line) - (stop > line && stop[-1] == '\r');
    line_number++;
    return true;
}

/* The longest line has 200 bytes, and each is "one from 0x20 to 0x7E" or a tab. */
static void demand_bytes(void) {
    demand(line_length <= MOST_LINE, E15);
    for (size_t place = 0; place < line_length; place++)
        demand((line[place] >= 0x20 && line[place] <= 0x7E) || line[place] == '\t', E19);
}

/* "Words are separated by spaces and tabs, in any number, also at both ends." "In version 2 a `#` and all behind it in its
 * line is a comment, and passed over before words are counted." */
static void split_words(bool has_comments) {
    line[line_length] = '\0';
    if (has_comments) line[strcspn(line, "#")] = '\0';
    word_count = 0;
    for (char *word = strtok(line, " \t"); word; word = strtok(NULL, " \t")) words[word_count++] = word;
}

/* Whether the line has a word, or is "A line with too many bytes or a wrong byte", which "isn't blank, whatever else it has". */
static bool is_blank(void) {
    size_t place = 0;
    while (place < line_length && (line[place] == ' ' || line[place] == '\t')) place++;
    return place == line_length && line_length <= MOST_LINE;
}

/* "Over the whole text E20 is looked for first, then E18 of line 0". */
static void demand_words(void) {
    demand(text_length <= MOST_BYTES, E20);
    bool has_words = false;
    while (next_line()) has_words |= !is_blank();
    line_number = 0;
    next_line_start = 0;
    demand(has_words, E18);
}

static bool is_word(int place, const char *word) { return strcmp(words[place], word) == 0; }

/* ---- Numbers and names ---- */

static bool is_digit(char byte) { return byte >= '0' && byte <= '9'; }

static bool is_letter(char byte) { return (byte >= 'a' && byte <= 'z') || (byte >= 'A' && byte <= 'Z'); }

/* "A name is a letter and up to 15 letters, digits or `_`." */
static void demand_name(const char *word) {
    demand(is_letter(word[0]) && strlen(word) <= MOST_NAME, E4);
    for (; *word; word++) demand(is_letter(*word) || is_digit(*word) || *word == '_', E4);
}

/* Takes an optional minus off the front of a word. */
static int take_sign(const char **word) {
    bool is_below = **word == '-';
    *word += is_below;
    return is_below ? -1 : 1;
}

/* Takes from one to `most` digits off the front of a word, 19 at most. */
static wide take_digits(const char **word, int most) {
    wide value = 0;
    int count = 0;
    for (; is_digit(**word) && count < most; count++) value = 10 * value + (*(*word)++ - '0');
    demand(count > 0, E8);
    return value;
}

/* "A number is an optional `-`, one to seven digits, and optionally a `.` with one to three digits. It is at most 1,000,000
 * millimetres in absolute value." The answer is in micrometres. */
static int64_t micrometres(const char *word) {
    int sign = take_sign(&word);
    wide value = 1000 * take_digits(&word, 7);
    if (*word == '.') {
        const char *first = ++word;
        wide part = take_digits(&word, 3);
        value += part * (word - first == 1 ? 100 : word - first == 2 ? 10 : 1);
    }
    demand(*word == '\0' && value <= MOST_MICROMETRES, E8);
    return sign * (int64_t)value;
}

/* "A length or radius is above 0": below it is E8, and 0 is E9, which the caller asks for behind all E8. */
static int64_t length_micrometres(const char *word) {
    int64_t value = micrometres(word);
    demand(value >= 0, E8);
    return value;
}

/* "A ratio is an optional `-`, one to five digits, `/`, one to five digits, without blanks; both numbers are at most 10,000". */
static void read_ratio(const char *word, int64_t *p, int64_t *q) {
    int sign = take_sign(&word);
    *p = sign * (int64_t)take_digits(&word, 5);
    demand(*word++ == '/', E8);
    *q = (int64_t)take_digits(&word, 5);
    demand(*word == '\0' && sign * *p <= MOST_RATIO && *q <= MOST_RATIO, E8);
}

/* "Numbers are whole, with an optional `-` and 1 to 19 digits". */
static int64_t whole(const char *word, int64_t most) {
    int sign = take_sign(&word);
    wide value = take_digits(&word, 19);
    demand(*word == '\0' && value <= most, E8);
    return sign * (int64_t)value;
}

/* ---- The sketch ---- */

enum kind { A_POINT, A_LINE, A_CIRCLE, NO_KIND };

/* The kind of element that the first word of a line names. */
static enum kind kind_of_word(void) {
    return is_word(0, "point") ? A_POINT : is_word(0, "line") ? A_LINE : is_word(0, "circle") ? A_CIRCLE : NO_KIND;
}

struct place {
    wide x, y;
};

static struct element {
    char name[MOST_NAME + 1];
    enum kind kind;
    struct place drawn, ahead; /* micrometres; `ahead` is the second drawn place of a line */
    int64_t radius;            /* micrometres */
    bool is_claimed;
    int64_t claimed[3]; /* x, y and r in nanometres; of a line a and b in parts per 10^9, c in nanometres */
} elements[MOST_ELEMENTS];
static int element_count;

enum form { A_LENGTH, A_HEIGHT, AN_ANGLE, A_BLOCK };

static struct constraint {
    enum form form;
    int pins[MOST_PINS], pin_count; /* of a height the point and the line, of an angle L and M */
    int64_t size;                   /* of a length D, of a height H, in micrometres */
    int side;                       /* of a height */
    int64_t p, q;                   /* of an angle */
    struct place given[MOST_PINS];  /* of a block, in micrometres */
} constraints[MOST_CONSTRAINTS];
static int constraint_count;

static struct place less(struct place one, struct place other) { return (struct place){one.x - other.x, one.y - other.y}; }

static wide dot(struct place one, struct place other) { return one.x * other.x + one.y * other.y; }

static wide cross(struct place one, struct place other) { return one.x * other.y - one.y * other.x; }

static bool is_origin(struct place place) { return place.x == 0 && place.y == 0; }

/* The turn from the first place by the second to the third: above 0 to the left. */
static wide turn(struct place first, struct place second, struct place third) {
    return cross(less(second, first), less(third, first));
}

/* The number of the element, from 0, or -1. */
static int find(const char *name) {
    int number = element_count - 1;
    while (number >= 0 && strcmp(elements[number].name, name)) number--;
    return number;
}

static int known(const char *name) {
    int number = find(name);
    demand(number >= 0, E6);
    return number;
}

static bool is_line(int number) { return elements[number].kind == A_LINE; }

static bool is_circle(int number) { return elements[number].kind == A_CIRCLE; }

static struct place drawn_place(int word) { return (struct place){micrometres(words[word]), micrometres(words[word + 1])}; }

/* "Within a line the first that holds of E15, E19, E1, E17, E2, E12, E3, E4, E5, E6, E7, E8, E9, E10, E11, E13, E14 is named."
 * "A `circle` line has exactly four words: circles of variable radius aren't supported". */
static void read_element(enum kind kind) {
    static const int counts[] = {4, 6, 5};
    struct element new = {.kind = kind};
    demand(kind != A_CIRCLE || word_count != 4, E12);
    demand(word_count == counts[kind], E3);
    demand_name(words[1]);
    demand(find(words[1]) < 0, E5);
    strcpy(new.name, words[1]);
    new.drawn = drawn_place(2);
    if (kind == A_LINE) new.ahead = drawn_place(4);
    if (kind == A_CIRCLE) new.radius = length_micrometres(words[4]);
    demand(kind != A_CIRCLE || new.radius > 0, E9);
    demand(kind != A_LINE || !is_origin(less(new.ahead, new.drawn)), E11);
    demand(element_count < MOST_ELEMENTS, E13);
    elements[element_count++] = new;
}

static void add(const struct constraint *new) {
    demand(constraint_count < MOST_CONSTRAINTS, E14);
    constraints[constraint_count++] = *new;
}

/* "All names of a line are checked for E4 before any is looked up." */
static void read_two_names(struct constraint *new, int count) {
    demand(word_count == count, E3);
    demand_name(words[1]);
    demand_name(words[2]);
    new->pins[0] = known(words[1]);
    new->pins[1] = known(words[2]);
    new->pin_count = 2;
}

/* Makes the second of the two elements the line, where either is: in "either order". */
static void put_line_last(struct constraint *new) {
    int first = new->pins[0];
    if (!is_line(first)) return;
    new->pins[0] = new->pins[1];
    new->pins[1] = first;
}

/* "the point is drawn on the line's left, or on it" */
static int drawn_side(int point, int number) {
    return turn(elements[number].drawn, elements[number].ahead, elements[point].drawn) >= 0 ? 1 : -1;
}

/* "two points or centres are so far apart; or a point or centre and a line, in either order" */
static void read_distance(void) {
    struct constraint new = {.side = 1};
    read_two_names(&new, 4);
    put_line_last(&new);
    demand(!is_line(new.pins[0]), E7);
    new.size = length_micrometres(words[3]);
    demand(new.size > 0, E9);
    demand(new.pins[0] != new.pins[1], E10);
    new.form = is_line(new.pins[1]) ? A_HEIGHT : A_LENGTH;
    if (new.form == A_HEIGHT) new.side = drawn_side(new.pins[0], new.pins[1]);
    add(&new);
}

/* "a point or centre U lies on the line V, or a point U on the circle V": H is 0, D is "for a point on a circle, its radius". */
static void read_on(void) {
    struct constraint new = {.side = 1};
    read_two_names(&new, 3);
    int one = new.pins[0], other = new.pins[1];
    demand(is_line(other) ? !is_line(one) : is_circle(other) && elements[one].kind == A_POINT, E7);
    new.form = is_line(other) ? A_HEIGHT : A_LENGTH;
    new.size = elements[other].radius;
    add(&new);
}

/* "a line and a circle, in either order, touch": H is "the radius of a circle that is `tangent`". */
static void read_tangent(void) {
    struct constraint new = {.form = A_HEIGHT};
    read_two_names(&new, 3);
    put_line_last(&new);
    demand(is_circle(new.pins[0]) && is_line(new.pins[1]), E7);
    new.size = elements[new.pins[0]].radius;
    new.side = drawn_side(new.pins[0], new.pins[1]);
    add(&new);
}

/* "For circles that touch, D is the sum of their radii, or the difference for `inside`", which has no "equal radii". */
static void read_touch(bool is_inside) {
    struct constraint new = {.form = A_LENGTH};
    read_two_names(&new, 3);
    int one = new.pins[0], other = new.pins[1];
    demand(is_circle(one) && is_circle(other), E7);
    int64_t first = elements[one].radius, second = elements[other].radius;
    demand(!is_inside || first != second, E9);
    demand(one != other, E10);
    new.size = !is_inside ? first + second : first > second ? first - second : second - first;
    add(&new);
}

/* "the angle from line L to line M has the tangent p/q", "and p isn't 0" */
static void read_angle(void) {
    struct constraint new = {.form = AN_ANGLE};
    read_two_names(&new, 4);
    demand(is_line(new.pins[0]) && is_line(new.pins[1]), E7);
    read_ratio(words[3], &new.p, &new.q);
    demand(new.p != 0, E9);
    demand(new.pins[0] != new.pins[1], E10);
    add(&new);
}

/* The codes that look at two pins of a block: "two places of a block are equal", "two names are one element". */
static void demand_unlike_pins(const struct constraint *block) {
    for (int last = 0; last < block->pin_count; last++)
        for (int pin = 0; pin < last; pin++) demand(!is_origin(less(block->given[pin], block->given[last])), E9);
    for (int last = 0; last < block->pin_count; last++)
        for (int pin = 0; pin < last; pin++) demand(block->pins[pin] != block->pins[last], E10);
}

/* "from 2 to 16 points or centres lie towards each other as these places, not mirrored" */
static void read_block(void) {
    struct constraint new = {.form = A_BLOCK, .pin_count = (word_count - 1) / 3};
    demand(word_count % 3 == 1 && new.pin_count >= 2 && new.pin_count <= MOST_PINS, E3);
    for (int pin = 0; pin < new.pin_count; pin++) demand_name(words[3 * pin + 1]);
    for (int pin = 0; pin < new.pin_count; pin++) new.pins[pin] = known(words[3 * pin + 1]);
    for (int pin = 0; pin < new.pin_count; pin++) demand(!is_line(new.pins[pin]), E7);
    for (int pin = 0; pin < new.pin_count; pin++) new.given[pin] = drawn_place(3 * pin + 2);
    demand_unlike_pins(&new);
    add(&new);
}

/* A line between the header and `end`. */
static void read_sketch_line(bool has_blocks) {
    enum kind kind = kind_of_word();
    if (kind != NO_KIND) read_element(kind);
    else if (is_word(0, "distance")) read_distance();
    else if (is_word(0, "on")) read_on();
    else if (is_word(0, "tangent")) read_tangent();
    else if (is_word(0, "outside")) read_touch(false);
    else if (is_word(0, "inside")) read_touch(true);
    else if (is_word(0, "angle")) read_angle();
    else if (is_word(0, "block") && has_blocks) read_block();
    else refuse(E2);
}

/* "`end` has further words"; "`end` comes before any element" */
static void read_end(void) {
    demand(word_count == 1, E3);
    demand(element_count > 0, E18);
}

/* ---- The claim ---- */

enum choice_form { NO_CHOICE, A_TURN, AN_ADVANCE };

struct choice {
    enum choice_form form;
    int sign; /* 1 or -1, of no choice 0 */
};

/* "C1, C2, C3, C and sN are names of clusters": a `c` is kept as its number, an `s` as its number and this, so that the numbers
 * fall where the names do. */
enum { S_NAMES = 1000000 };

static struct step {
    int name, joins[3], at[3], keeps;
    struct choice choice;
} steps[MOST_STEPS];
static long step_count; /* of the claim; those behind the table are read, and not kept */

static int64_t length_tolerance, angle_tolerance; /* nanometres, parts per 10^9 */

/* "`c` or `s` and a number from 1 to 999999 without a leading zero" */
static int cluster_name(const char *word) {
    const char *digits = word + 1;
    demand((*word == 'c' || *word == 's') && *digits >= '1' && *digits <= '9' && strlen(digits) <= 6, E4);
    int number = 0;
    for (; *digits; digits++) {
        demand(is_digit(*digits), E4);
        number = 10 * number + *digits - '0';
    }
    return *word == 's' ? S_NAMES + number : number;
}

/* "`joins`, `at`, `keeps` or the choice is another word; so is a `turn` or `advance` without its sign" */
static struct choice read_choice(void) {
    struct choice choice = {is_word(12, "turn") ? A_TURN : is_word(12, "advance") ? AN_ADVANCE : NO_CHOICE, 0};
    if (choice.form == NO_CHOICE) {
        demand(word_count == 13 && is_word(12, "none"), E2);
        return choice;
    }
    demand(word_count == 14 && (is_word(13, "+") || is_word(13, "-")), E2);
    choice.sign = is_word(13, "+") ? 1 : -1;
    return choice;
}

/* "step sN joins C1 C2 C3 at E1 E2 E3 keeps C turn +|turn -|advance +|advance -|none" */
static void read_step(void) {
    struct step step;
    demand(word_count == 13 || word_count == 14, E3);
    demand(is_word(2, "joins") && is_word(6, "at") && is_word(10, "keeps"), E2);
    step.choice = read_choice();
    step.name = cluster_name(words[1]);
    for (int place = 0; place < 3; place++) step.joins[place] = cluster_name(words[3 + place]);
    for (int place = 0; place < 3; place++) demand_name(words[7 + place]);
    step.keeps = cluster_name(words[11]);
    for (int place = 0; place < 3; place++) step.at[place] = known(words[7 + place]);
    if (step_count < MOST_STEPS) steps[step_count] = step;
    step_count++;
}

/* "x, y, c and r in nanometres, at most 2^60 in absolute value, a and b in parts per 10^9, at most 2*10^9 in absolute value" */
static void read_claimed_place(enum kind kind) {
    int count = kind == A_POINT ? 2 : 3;
    int64_t claimed[3] = {0, 0, 0};
    demand(word_count == 2 + count, E3);
    demand_name(words[1]);
    struct element *element = &elements[known(words[1])];
    demand(element->kind == kind, E7);
    for (int place = 0; place < count; place++)
        claimed[place] = whole(words[2 + place], kind == A_LINE && place < 2 ? 2 * billion : most_place);
    demand(!element->is_claimed, E5);
    element->is_claimed = true;
    memcpy(element->claimed, claimed, sizeof claimed);
}

/* "T in nanometres and W in parts per 10^9, from 0 to 2^62" */
static void read_tolerance(void) {
    demand(word_count == 3, E3);
    length_tolerance = whole(words[1], most_tolerance);
    angle_tolerance = whole(words[2], most_tolerance);
    demand(length_tolerance >= 0 && angle_tolerance >= 0, E8);
}

/* A line of the claim before `tolerance`. */
static void read_claim_line(void) {
    enum kind kind = kind_of_word();
    if (kind != NO_KIND) read_claimed_place(kind);
    else if (is_word(0, "step")) read_step();
    else refuse(E2);
}

enum stage { HEADER, SKETCH, CLAIM, TAIL };

/* Reads a line that isn't blank, and answers what comes behind it. */
static enum stage read_line(enum stage stage, bool is_second_version) {
    if (stage == TAIL) refuse(E17);
    if (stage == SKETCH && is_word(0, "end")) return read_end(), CLAIM;
    if (stage == SKETCH) return read_sketch_line(is_second_version), SKETCH;
    if (is_word(0, "tolerance")) return read_tolerance(), TAIL;
    return read_claim_line(), CLAIM;
}

/* "the first line that isn't blank is neither `sketch 1` nor `sketch 2`". Answers whether it is the latter. */
static bool read_header(void) {
    demand(word_count == 2 && is_word(0, "sketch") && (is_word(1, "1") || is_word(1, "2")), E1);
    return is_word(1, "2");
}

/* "then the lines in order, and E16 last", which stands "on the line behind the last" */
static void read_lines(void) {
    enum stage stage = HEADER;
    bool is_second_version = false;
    while (next_line()) {
        demand_bytes();
        split_words(is_second_version && stage == SKETCH);
        if (word_count == 0) continue;
        if (stage == HEADER) is_second_version = read_header(), stage = SKETCH;
        else stage = read_line(stage, is_second_version);
    }
    line_number++;
    demand(stage == TAIL, E16);
}

/* ---- The steps ---- */

enum { NOBODY = -1 };

/* A cluster is a list of members; one without members doesn't stand. */
static struct cluster {
    int size, first;
} constraint_clusters[MOST_CONSTRAINTS], step_clusters[MOST_STEPS];
static struct member {
    int element, next;
} members[MOST_CONSTRAINTS * MOST_PINS];
static bool marked[MOST_ELEMENTS];
static int cluster_count;

static void mark(const struct cluster *cluster, bool value) {
    for (int member = cluster->first; member != NOBODY; member = members[member].next) marked[members[member].element] = value;
}

/* "At first each constraint is a cluster of the elements that it names, called `c` and its number." */
static void make_clusters(void) {
    int next = 0;
    for (int number = 0; number < constraint_count; number++) {
        struct cluster *cluster = &constraint_clusters[number];
        cluster->size = constraints[number].pin_count;
        cluster->first = NOBODY;
        for (int pin = 0; pin < cluster->size; pin++, next++) {
            members[next] = (struct member){constraints[number].pins[pin], cluster->first};
            cluster->first = next;
        }
    }
    cluster_count = constraint_count;
}

/* The cluster that stands under a name, or NULL. */
static struct cluster *standing(int name) {
    int number = name < S_NAMES ? name : name - S_NAMES;
    if (number > (name < S_NAMES ? MOST_CONSTRAINTS : MOST_STEPS)) return NULL;
    struct cluster *cluster = name < S_NAMES ? &constraint_clusters[number - 1] : &step_clusters[number - 1];
    return cluster->size > 0 ? cluster : NULL;
}

/* "The first and the second share just the one element E1" */
static bool share_just(const struct cluster *one, const struct cluster *other, int element) {
    int count = 0;
    bool has_element = false;
    mark(one, true);
    for (int member = other->first; member != NOBODY; member = members[member].next)
        if (marked[members[member].element]) count++, has_element |= members[member].element == element;
    mark(one, false);
    return count == 1 && has_element;
}

/* Moves the members of a cluster into another that doesn't have them; what both have is dropped. */
static void absorb(struct cluster *into, struct cluster *from) {
    mark(into, true);
    for (int member = from->first, next; member != NOBODY; member = next) {
        next = members[member].next;
        if (marked[members[member].element]) continue;
        members[member].next = into->first;
        into->first = member;
        into->size++;
    }
    mark(into, false);
    from->size = 0;
}

/* "The three clusters go, and one with all their elements stands under the step's name." */
static void join(struct cluster *joined[3], struct cluster *made) {
    *made = *joined[0];
    joined[0]->size = 0;
    absorb(made, joined[1]);
    absorb(made, joined[2]);
    cluster_count -= 2;
}

/* "of the three it keeps the one with most elements, and of several such the one with the least name": names fall, so the last */
static int kept_name(const struct step *step, struct cluster *joined[3]) {
    int kept = 2;
    if (joined[1]->size > joined[kept]->size) kept = 1;
    if (joined[0]->size > joined[kept]->size) kept = 0;
    return step->joins[kept];
}

/* Three elements, the points by rising number, and the lines behind them. */
struct trio {
    int element[3], points;
};

static bool stands_before(int one, int other) { return is_line(one) != is_line(other) ? is_line(other) : one < other; }

static void swap_where_falling(int *one, int *other) {
    int first = *one;
    if (stands_before(first, *other)) return;
    *one = *other;
    *other = first;
}

static struct trio trio_of(const struct step *step) {
    struct trio trio = {{step->at[0], step->at[1], step->at[2]}, 0};
    swap_where_falling(&trio.element[0], &trio.element[1]);
    swap_where_falling(&trio.element[1], &trio.element[2]);
    swap_where_falling(&trio.element[0], &trio.element[1]);
    for (int place = 0; place < 3; place++) trio.points += !is_line(trio.element[place]);
    return trio;
}

/* Places and directions are looked at as they are drawn, and as they are claimed. */
enum view { DRAWN, PLACED };

static struct place position(int number, enum view view) {
    const struct element *element = &elements[number];
    return view == DRAWN ? element->drawn : (struct place){element->claimed[0], element->claimed[1]};
}

/* "a placed line runs in the direction (b, -a)" */
static struct place direction(int number, enum view view) {
    const struct element *element = &elements[number];
    if (view == DRAWN) return less(element->ahead, element->drawn);
    return (struct place){element->claimed[1], -element->claimed[0]};
}

/* "A drawn 0 counts as plus, and a placed 0 differs from both." */
static int sign_of(wide value, enum view view) { return value > 0 ? 1 : value < 0 ? -1 : view == DRAWN; }

/* "`turn` of three points, by rising number; `advance` of two points along a line, from the lesser number to the greater" */
static int sign_of_step(const struct trio *trio, enum view view) {
    struct place first = position(trio->element[0], view), second = position(trio->element[1], view);
    if (trio->points == 3) return sign_of(turn(first, second, position(trio->element[2], view)), view);
    return sign_of(dot(direction(trio->element[2], view), less(second, first)), view);
}

/* "Its choice is the one that the drawing makes", which is "`none` for a point and two lines". */
static bool chooses_as_drawn(const struct step *step) {
    struct trio trio = trio_of(step);
    if (trio.points == 1) return step->choice.form == NO_CHOICE;
    return step->choice.form == (trio.points == 3 ? A_TURN : AN_ADVANCE) && step->choice.sign == sign_of_step(&trio, DRAWN);
}

/* "A step joins three clusters that stand, whose names fall" */
static bool finds_clusters(const struct step *step, struct cluster *joined[3]) {
    for (int place = 0; place < 3; place++) joined[place] = standing(step->joins[place]);
    return joined[0] && joined[1] && joined[2] && step->joins[0] > step->joins[1] && step->joins[1] > step->joins[2];
}

/* "the second and the third E2, the third and the first E3; the three differ, and aren't all lines" */
static bool meets_at_elements(const struct step *step, struct cluster *joined[3]) {
    const int *at = step->at;
    for (int place = 0; place < 3; place++)
        if (!share_just(joined[place], joined[(place + 1) % 3], at[place])) return false;
    bool are_lines = is_line(at[0]) && is_line(at[1]) && is_line(at[2]);
    return at[0] != at[1] && at[1] != at[2] && at[2] != at[0] && !are_lines;
}

static void explain_step(int number) {
    static const char *const choices[] = {"none", "turn", "advance"};
    const struct step *step = &steps[number - 1];
    printf("s%d joins", number);
    for (int place = 0; place < 3; place++)
        printf(" %c%d", step->joins[place] > S_NAMES ? 's' : 'c', step->joins[place] % S_NAMES);
    printf(" to %d elements, %s%s\n", step_clusters[number - 1].size, choices[step->choice.form],
           step->choice.sign > 0 ? " +" : step->choice.sign < 0 ? " -" : "");
}

/* "the step at place I isn't named so, may not be taken there, keeps another cluster than it has to, or has another choice than
 * the drawing" */
static void check_step(int number) {
    const struct step *step = &steps[number - 1];
    struct cluster *joined[3];
    bool is_right = step->name == S_NAMES + number && finds_clusters(step, joined) && meets_at_elements(step, joined) &&
                    step->keeps == kept_name(step, joined) && chooses_as_drawn(step);
    if (!is_right) fail("s", number);
    join(joined, &step_clusters[number - 1]);
    if (explains) explain_step(number);
}

/* "After the last step one cluster is left, with all elements; or the sketch is one element without a constraint." */
static bool leave_one_part(void) {
    if (constraint_count == 0) return element_count == 1;
    const struct cluster *last = step_count ? &step_clusters[step_count - 1] : &constraint_clusters[0];
    return cluster_count == 1 && last->size == element_count;
}

static void check_steps(void) {
    make_clusters();
    for (int number = 1; number <= step_count && number <= MOST_STEPS; number++) check_step(number);
    if (!leave_one_part()) {
        printf("verify fails parts\n");
        finish(FAILS);
    }
}

/* ---- The places and the constraints ---- */

/* "the element, the first by number, has no line, or the circle has another radius" */
static void check_elements(void) {
    for (int number = 0; number < element_count; number++) {
        const struct element *element = &elements[number];
        bool has_radius = !is_circle(number) || element->claimed[2] == element->radius * NANOMETRES;
        if (!element->is_claimed || !has_radius) fail_at("element", element->name);
    }
}

static wide magnitude(wide value) { return value < 0 ? -value : value; }

static void explain_normal(const char *name, wide excess) {
    printf("line %s: the square of the normal is ", name);
    print_wide(excess);
    printf(" / 10^9 ppb too much\n");
}

/* "|a^2 + b^2 - 10^18| <= W*10^9" */
static void check_normals(void) {
    for (int number = 0; number < element_count; number++) {
        if (!is_line(number)) continue;
        struct place normal = direction(number, PLACED);
        wide excess = dot(normal, normal) - (wide)billion * billion;
        if (explains) explain_normal(elements[number].name, excess);
        if (magnitude(excess) > (wide)angle_tolerance * billion) fail_at("line", elements[number].name);
    }
}

/* The square of the distance of two claimed places, in nanometres. */
static wide squared_distance(int one, int other) {
    struct place way = less(position(one, PLACED), position(other, PLACED));
    return dot(way, way);
}

/* "max(least - T, 0)^2 <= dx^2 + dy^2 <= (most + T)^2", where least and most are whole nanometres. */
static bool is_within(wide square, wide least, wide most) {
    wide low = least > length_tolerance ? least - length_tolerance : 0, high = most + length_tolerance;
    return low * low <= square && square <= high * high;
}

/* Of a length its one distance, of a block those of each two pins. */
static void explain_squares(int number, const struct constraint *constraint) {
    printf("c%d: the distances have the squares ", number);
    for (int one = 0; one < constraint->pin_count; one++)
        for (int other = one + 1; other < constraint->pin_count; other++) {
            printf("%s", other == 1 ? "[" : ", ");
            print_wide(squared_distance(constraint->pins[one], constraint->pins[other]));
        }
    printf("] nm2\n");
}

/* "two points or centres that are to be D um apart have max(1000*D - T, 0)^2 <= dx^2 + dy^2 <= (1000*D + T)^2" */
static bool length_holds(const struct constraint *length) {
    wide size = (wide)length->size * NANOMETRES;
    return is_within(squared_distance(length->pins[0], length->pins[1]), size, size);
}

/* The greatest whole number whose square isn't above the value, which is below 2^84: it is found bit by bit. */
static wide root_below(wide value) {
    wide root = 0;
    for (int bit = 42; bit >= 0; bit--) {
        wide more = root + ((wide)1 << bit);
        if (more * more <= value) root = more;
    }
    return root;
}

/* "q be the square of the distance of their given places, in um^2, r the greatest whole number with r^2 <= 10^6*q, and R the
 * least with R^2 >= 10^6*q; then max(r - T, 0)^2 <= dx^2 + dy^2 <= (R + T)^2" */
static bool pins_hold(const struct constraint *block, int one, int other) {
    struct place way = less(block->given[one], block->given[other]);
    wide square = dot(way, way) * NANOMETRES * NANOMETRES, least = root_below(square);
    wide most = least + (least * least < square);
    return is_within(squared_distance(block->pins[one], block->pins[other]), least, most);
}

static bool block_holds(const struct constraint *block) {
    for (int last = 1; last < block->pin_count; last++)
        for (int pin = 0; pin < last; pin++)
            if (!pins_hold(block, pin, last)) return false;
    return true;
}

/* "|s*(a*x + b*y - 10^9*c) - 1000*H*10^9| <= T*10^9", where s is the side: by how much the height is off. */
static wide height_excess(const struct constraint *height) {
    const int64_t *point = elements[height->pins[0]].claimed, *normal = elements[height->pins[1]].claimed;
    wide above = (wide)normal[0] * point[0] + (wide)normal[1] * point[1] - (wide)billion * normal[2];
    return height->side * above - (wide)height->size * NANOMETRES * billion;
}

/* "|q*cross - p*dot| <= W*10^9*(|p| + |q|), where cross and dot are those of the two normals, from L's to M's": so are those of
 * the directions, which are the normals turned by a right angle. This is by how much the angle is off. */
static wide angle_excess(const struct constraint *angle) {
    struct place from = direction(angle->pins[0], PLACED), to = direction(angle->pins[1], PLACED);
    return angle->q * cross(from, to) - angle->p * dot(from, to);
}

static bool height_holds(const struct constraint *height) {
    return magnitude(height_excess(height)) <= (wide)length_tolerance * billion;
}

/* 10^9*(|p| + |q|): by so much an angle that is one part in 10^9 off is. */
static wide angle_unit(const struct constraint *angle) { return billion * (magnitude(angle->p) + angle->q); }

static bool angle_holds(const struct constraint *angle) {
    return magnitude(angle_excess(angle)) <= angle_tolerance * angle_unit(angle);
}

static bool holds(const struct constraint *constraint) {
    if (constraint->form == A_LENGTH) return length_holds(constraint);
    if (constraint->form == A_HEIGHT) return height_holds(constraint);
    return constraint->form == AN_ANGLE ? angle_holds(constraint) : block_holds(constraint);
}

static void explain_height(int number, const struct constraint *height) {
    printf("c%d: the height is ", number);
    print_wide(height_excess(height));
    printf(" / 10^9 nm too much\n");
}

static void explain_angle(int number, const struct constraint *angle) {
    printf("c%d: the angle is ", number);
    print_wide(angle_excess(angle));
    printf(" / ");
    print_wide(angle_unit(angle));
    printf(" ppb off\n");
}

static void explain_constraint(int number, const struct constraint *constraint) {
    if (constraint->form == A_HEIGHT) explain_height(number, constraint);
    else if (constraint->form == AN_ANGLE) explain_angle(number, constraint);
    else explain_squares(number, constraint);
}

static void check_constraints(void) {
    for (int number = 1; number <= constraint_count; number++) {
        const struct constraint *constraint = &constraints[number - 1];
        if (explains) explain_constraint(number, constraint);
        if (!holds(constraint)) fail("c", number);
    }
}

/* ---- The signs ---- */

static void check_sign(const char *what, int number, int drawn, int placed) {
    if (explains) printf("%s%d: drawn %+d, placed %+d\n", what, number, drawn, placed);
    if (drawn == placed) return;
    printf("verify fails sign %s%d\n", what, number);
    finish(FAILS);
}

/* "the sign of an angle is that of q*dot + p*cross, of the drawn directions and of the claimed normals" */
static int sign_of_angle(const struct constraint *angle, enum view view) {
    struct place from = direction(angle->pins[0], view), to = direction(angle->pins[1], view);
    return sign_of(angle->q * dot(from, to) + angle->p * cross(from, to), view);
}

/* "that of a block is the turn of its first three pins whose given places don't lie on one line, and without such pins it has
 * none". The first two places differ, so the first three pins that turn are these two and the first that isn't in line. */
static void check_sign_of_block(int number, const struct constraint *block) {
    for (int pin = 2; pin < block->pin_count; pin++) {
        wide given = turn(block->given[0], block->given[1], block->given[pin]);
        if (given == 0) continue;
        struct place first = position(block->pins[0], PLACED), second = position(block->pins[1], PLACED);
        wide placed = turn(first, second, position(block->pins[pin], PLACED));
        check_sign("c", number, sign_of(given, DRAWN), sign_of(placed, PLACED));
        return;
    }
}

/* "Signs, of each angle and block by their numbers, then of each step" */
static void check_signs(void) {
    for (int number = 1; number <= constraint_count; number++) {
        const struct constraint *constraint = &constraints[number - 1];
        if (constraint->form == AN_ANGLE)
            check_sign("c", number, sign_of_angle(constraint, DRAWN), sign_of_angle(constraint, PLACED));
        if (constraint->form == A_BLOCK) check_sign_of_block(number, constraint);
    }
    for (int number = 1; number <= step_count; number++) {
        struct trio trio = trio_of(&steps[number - 1]);
        if (trio.points > 1) check_sign("s", number, sign_of_step(&trio, DRAWN), sign_of_step(&trio, PLACED));
    }
}

/* ---- The program ---- */

static void read_text(FILE *file) {
    text_length = fread(text, 1, sizeof text, file);
    if (ferror(file)) finish(READ_FAULT);
}

static void use(int status) {
    fprintf(stderr, "usage: sketch_claim [--explain] [FILE]\n");
    finish(status);
}

/* The file of the last argument, or standard input. */
static FILE *opened(int count, char **arguments) {
    int next = 1;
    if (next < count && strcmp(arguments[next], "--explain") == 0) explains = true, next++;
    if (next == count) return stdin;
    if (next + 1 < count || arguments[next][0] == '-') use(USAGE);
    FILE *file = fopen(arguments[next], "rb");
    if (!file) finish(READ_FAULT);
    return file;
}

int main(int count, char **arguments) {
    read_text(opened(count, arguments));
    demand_words();
    read_lines();
    check_steps();
    check_elements();
    check_normals();
    check_constraints();
    check_signs();
    printf("verified steps %ld length %" PRId64 " nm angle %" PRId64 " ppb\n", step_count, length_tolerance, angle_tolerance);
    finish(VERIFIED);
}
