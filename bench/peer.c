/* The job of launchlist, as it is commonly done: whole numbers are read, worked in binary64 and rounded at the end.
 *
 * Reads a list of readings from standard input and answers it on standard output, with the same field rules and the same
 * refusals. Nothing is proved of it, and its temperatures are not exact: see README.md. It is here to be measured against. */
#include <ctype.h>
#include <errno.h>
#include <math.h>
#include <stdbool.h>
#include <stdint.h>
#include <stdio.h>
#include <stdlib.h>
#include <string.h>
#include <unistd.h>

enum { BLOCK = 64 * 1024, LINE_MOST = 200, FIELDS = 9, ID_MOST = 16, LAW_MOST = 8, DIGITS_MOST = 13, RESISTANCE_DIGITS_MOST = 14 };

/* In nanoohm. */
static const int64_t RESISTANCE_MOST = 10000000000000, DIVISOR_LEAST = 100000000;

/* Refusals, by their numbers. */
enum {
    ANSWERED = 0,
    BAD_RESISTANCE = 1,
    RATIO_TOO_HIGH = 2,
    UNKNOWN_LAW = 3,
    BAD_CERTIFICATE = 7,
    BELOW_RANGE = 8,
    ABOVE_RANGE = 9,
    WRONG_HEADER = 10,
    WRONG_LENGTH = 12,
    WRONG_COUNT = 13,
    WRONG_FIELD = 14
};

static void fail(const char *doing)
{
    fprintf(stderr, "peer: %s: %s\n", doing, strerror(errno));
    exit(1);
}

/* Input: lines that end CRLF, the last one with or without it. */

static char in[BLOCK + 1]; /* one byte more, for the NUL after a last line */
static size_t in_at, in_end;

/* Moves what is left to the front and reads behind it; false at the end of input. */
static bool refill(void)
{
    memmove(in, in + in_at, in_end - in_at);
    in_end -= in_at;
    in_at = 0;
    for (;;) {
        ssize_t got = read(STDIN_FILENO, in + in_end, BLOCK - in_end);
        if (got >= 0) {
            in_end += (size_t)got;
            return got > 0;
        }
        if (errno != EINTR)
            fail("read");
    }
}

/* The next line, its CRLF replaced by a NUL, and its length; NULL where there is none. A line that does not fit the block
 * comes shortened, and still longer than a line may be. */
static char *next_line(size_t *length)
{
    size_t searched = 0;
    bool shortened = false;

    for (;;) {
        char *line = in + in_at;
        char *lf = memchr(line + searched, '\n', in_end - in_at - searched);
        if (lf != NULL) {
            searched = (size_t)(lf - line) + 1;
            if (searched < 2 || lf[-1] != '\r')
                continue;
            in_at += searched;
            *length = shortened ? LINE_MOST + 1 : searched - 2;
            lf[-1] = '\0';
            return line;
        }
        searched = in_end - in_at;
        if (searched == BLOCK) { /* the last byte may be the CR of its end */
            in_at = in_end - 1;
            searched = 1;
            shortened = true;
        }
        if (!refill()) {
            if (in_end == 0)
                return NULL;
            in[in_end] = '\0';
            *length = shortened ? LINE_MOST + 1 : in_end;
            in_at = in_end;
            return in;
        }
    }
}

/* Output: a block that is written when the next line might not fit. */

static char out[BLOCK];
static size_t out_end;

static void flush(void)
{
    for (size_t at = 0; at < out_end;) {
        ssize_t put = write(STDOUT_FILENO, out + at, out_end - at);
        if (put >= 0)
            at += (size_t)put;
        else if (errno != EINTR)
            fail("write");
    }
    out_end = 0;
}

static char *put_bytes(char *at, const char *bytes, size_t count)
{
    for (size_t i = 0; i < count; i++)
        *at++ = bytes[i];
    return at;
}

static char *put_number(char *at, int32_t value)
{
    char digits[10];
    int count = 0;
    uint32_t rest = value < 0 ? -(uint32_t)value : (uint32_t)value;

    if (value < 0)
        *at++ = '-';
    do {
        digits[count++] = (char)('0' + rest % 10);
        rest /= 10;
    } while (rest > 0);
    while (count > 0)
        *at++ = digits[--count];
    return at;
}

/* Lines. */

struct reading {
    const char *id, *law;
    size_t id_length, law_length;
    int64_t r, r0;         /* nanoohm */
    int64_t a, b, c, d;    /* units of 10^-11 */
    int64_t wal;           /* units of 10^-9 */
};

/* A number without sign, leading zero or too many digits, and the byte that must follow it. */
static inline bool scan_count(const char **at, char after, size_t most, int64_t *value)
{
    const char *first = *at, *p = first;
    uint64_t sum = 0; /* wraps where there are too many digits, and is not used then */

    while (*p >= '0' && *p <= '9')
        sum = sum * 10 + (uint64_t)(*p++ - '0');
    size_t digits = (size_t)(p - first);
    if (digits == 0 || digits > most || (*first == '0' && digits > 1) || *p != after)
        return false;
    *value = (int64_t)sum;
    *at = p + 1;
    return true;
}

static bool scan_signed(const char **at, char after, int64_t *value)
{
    if (**at != '-')
        return scan_count(at, after, DIGITS_MOST, value);
    ++*at;
    if (!scan_count(at, after, DIGITS_MOST, value) || *value == 0)
        return false;
    *value = -*value;
    return true;
}

/* The fields of a line that ends with a NUL. A NUL among its bytes ends no field but the last, which must end the line.
 * Gives the number of the first field that is not as it must be, or 0. */
static int scan_fields(const char *line, size_t length, struct reading *it)
{
    const char *p = line;

    it->id = p;
    while (isalnum((unsigned char)*p) || *p == '-')
        p++;
    it->id_length = (size_t)(p - it->id);
    if (it->id_length == 0 || it->id_length > ID_MOST || *p++ != ',')
        return 1;

    it->law = p;
    while (islower((unsigned char)*p))
        p++;
    it->law_length = (size_t)(p - it->law);
    if (it->law_length == 0 || it->law_length > LAW_MOST || *p++ != ',')
        return 2;

    if (!scan_count(&p, ',', RESISTANCE_DIGITS_MOST, &it->r))
        return 3;
    if (!scan_count(&p, ',', RESISTANCE_DIGITS_MOST, &it->r0))
        return 4;
    if (!scan_signed(&p, ',', &it->a))
        return 5;
    if (!scan_signed(&p, ',', &it->b))
        return 6;
    if (!scan_signed(&p, ',', &it->c))
        return 7;
    if (!scan_signed(&p, ',', &it->d))
        return 8;
    return scan_count(&p, '\0', DIGITS_MOST, &it->wal) && p == line + length + 1 ? 0 : FIELDS;
}

static bool has_all_fields(const char *line, size_t length)
{
    int commas = 0;

    for (size_t i = 0; i < length; i++)
        commas += line[i] == ',';
    return commas + 1 == FIELDS;
}

/* Scans a line; gives 0 or the number of its refusal, and at WRONG_FIELD the number of the field. The fields of a line
 * that scans are as many as they must be, so that they are counted in the others only. */
static int scan_line(const char *line, size_t length, struct reading *it, int32_t *field)
{
    if (length > LINE_MOST)
        return WRONG_LENGTH;
    *field = scan_fields(line, length, it);
    if (*field == 0)
        return ANSWERED;
    return has_all_fields(line, length) ? WRONG_FIELD : WRONG_COUNT;
}

/* Laws. A step is 0.1 mK, and steps count from 0 °C. */

struct law {
    const char *name;
    size_t length;
    int places; /* how many of a, b, c, d are used */
    bool silver;
    int32_t bottom, top;
};

static const struct law laws[] = {
    {"curve", 5, 0, false, -2000000, 8500000},
    {"ga", 2, 1, false, 0, 297646},
    {"in", 2, 1, false, 0, 1565985},
    {"sn", 2, 2, false, 0, 2319280},
    {"zn", 2, 2, false, 0, 4195270},
    {"al", 2, 3, false, 0, 6603230},
    {"ag", 2, 4, true, 0, 9617800},
};

static const struct law *find_law(const char *name, size_t length)
{
    for (size_t i = 0; i < sizeof laws / sizeof *laws; i++)
        if (length == laws[i].length && memcmp(name, laws[i].name, length) == 0)
            return &laws[i];
    return NULL;
}

/* Coefficients are at most 0.001, places without use 0, and W(Al) at most a thousandth of W(Al) - 1 off its reference. */
static bool sound(const struct law *law, const struct reading *it)
{
    const int64_t most = 100000000;
    const int64_t place[] = {it->a, it->b, it->c, it->d};

    for (int i = 0; i < 4; i++)
        if (i < law->places ? llabs(place[i]) > most : place[i] != 0)
            return false;
    if (!law->silver)
        return it->wal == 0;
    return 10 * llabs(100 * it->wal - 337600860000) <= llabs(it->wal - 1000000000);
}

/* IEC 60751: degrees Celsius from the ratio, in closed form from 0 °C up and by Newton's rule below. */
static double curve_celsius(double w)
{
    const double A = 3.9083e-3, B = -5.775e-7, C = -4.183e-12;
    double t = (-A + sqrt(A * A - 4.0 * B * (1.0 - w))) / (2.0 * B);

    if (w < 1.0)
        for (int i = 0; i < 3; i++) {
            double ratio = 1.0 + t * (A + t * (B + t * C * (t - 100.0)));
            double slope = A + t * (2.0 * B + t * C * (4.0 * t - 300.0));
            t -= (ratio - w) / slope;
        }
    return t;
}

/* ITS-90 from 0 °C up: the deviation is taken off, and the published inverse gives degrees Celsius within 0.13 mK. */
static double scale_celsius(const struct law *law, const struct reading *it, double w)
{
    static const double D[] = {439.932854, 472.418020, 37.684494, 7.472018, 2.920828,
                               0.005184,   -0.963864,  -0.188732, 0.191203, 0.049025};
    double x = w - 1.0;
    double deviation = x * (it->a + x * (it->b + x * it->c));

    if (law->silver) {
        double z = w - it->wal / 1e9;
        if (z >= 0.0)
            deviation += it->d * z * z;
    }
    double wr = w - deviation * 1e-11;
    double u = (wr - 2.64) / 1.64;
    double t = D[9];
    for (int i = 8; i >= 0; i--)
        t = t * u + D[i];
    return t;
}

/* The temperature of a well-formed line in steps, or the number of its refusal. */
static int read_temperature(const struct reading *it, int32_t *steps)
{
    const struct law *law = find_law(it->law, it->law_length);

    if (law == NULL)
        return UNKNOWN_LAW;
    if (!sound(law, it))
        return BAD_CERTIFICATE;
    if (it->r < 1 || it->r > RESISTANCE_MOST || it->r0 < DIVISOR_LEAST || it->r0 > RESISTANCE_MOST)
        return BAD_RESISTANCE;

    double units = floor((double)it->r * 1e9 / (double)it->r0 + 0.5);
    if (units > 4400000000.0)
        return RATIO_TOO_HIGH;
    double w = units / 1e9;
    double t = law->places == 0 ? curve_celsius(w) : scale_celsius(law, it, w);

    *steps = (int32_t)floor(t * 1e4);
    if (*steps < law->bottom)
        return BELOW_RANGE;
    if (*steps > law->top)
        return ABOVE_RANGE;
    return ANSWERED;
}

/* The line of an answer; the number before the code stands where it is given. */
static void put_answer(const struct reading *it, const int32_t *number, int code)
{
    if (BLOCK - out_end < LINE_MOST)
        flush();
    char *at = put_bytes(out + out_end, it->id, it->id_length);
    *at++ = ',';
    at = put_bytes(at, it->law, it->law_length);
    *at++ = ',';
    if (number != NULL)
        at = put_number(at, *number);
    *at++ = ',';
    at = put_number(at, code);
    *at++ = '\r';
    *at++ = '\n';
    out_end = (size_t)(at - out);
}

/* What is put for an id and a law that could not be read. */
static const struct reading unread = {.id = "?", .id_length = 1, .law = "?", .law_length = 1};

static void answer(const char *line, size_t length)
{
    struct reading it;
    int32_t field = 0, steps = 0;
    int code = scan_line(line, length, &it, &field);

    if (code != ANSWERED) {
        put_answer(&unread, code == WRONG_FIELD ? &field : NULL, code);
    } else {
        code = read_temperature(&it, &steps);
        put_answer(&it, code == ANSWERED ? &steps : NULL, code);
    }
}

int main(void)
{
    static const char expected[] = "id,law,r,r0,a,b,c,d,wal", header[] = "id,law,t,code\r\n";
    size_t length;
    char *line = next_line(&length);
    bool known = line != NULL && length == sizeof expected - 1 && memcmp(line, expected, length) == 0;

    out_end = (size_t)(put_bytes(out, header, sizeof header - 1) - out);
    if (!known)
        put_answer(&unread, NULL, WRONG_HEADER);
    else
        while ((line = next_line(&length)) != NULL)
            answer(line, length);
    flush();
    return 0;
}
