/* Decimal numbers as exporters write them, cut towards zero digit by digit: no binary number lies between, so that nothing is rounded up to a cutoff. */
#include "planner.h"

#define MOST_POWER 100000

/* What is left of a number. */
typedef struct {
    const char *at, *end;
} Rest;

static bool is_digit(const Rest *rest) { return rest->at < rest->end && *rest->at >= '0' && *rest->at <= '9'; }

static bool take_sign(Rest *rest) {
    bool minus = rest->at < rest->end && *rest->at == '-';
    if (minus || (rest->at < rest->end && *rest->at == '+')) rest->at++;
    return minus;
}

static size_t take_digits(Rest *rest, const char **digits) {
    *digits = rest->at;
    while (is_digit(rest)) rest->at++;
    return (size_t)(rest->at - *digits);
}

/* The power of ten behind e, E, d or D, 0 where there is none; false where no digits follow. */
static bool take_power(Rest *rest, int64_t *power) {
    *power = 0;
    if (rest->at == rest->end) return true;
    char mark = *rest->at++;
    if (mark != 'e' && mark != 'E' && mark != 'd' && mark != 'D') return false;
    bool minus = take_sign(rest);
    if (!is_digit(rest)) return false;
    for (; is_digit(rest); rest->at++)
        if (*power < MOST_POWER) *power = *power * 10 + (*rest->at - '0');
    if (minus) *power = -*power;
    return true;
}

/* The whole part of the digits ahead of the point and behind it, with the point moved; a number beyond every reading is some such number. Behind the digits of
 * a zero there are only zeros, of which a power makes up to a million. */
static int64_t whole_part(const char *ahead, size_t ahead_length, const char *behind, size_t behind_length, int64_t power) {
    int64_t digits = (int64_t)ahead_length + power, written = (int64_t)(ahead_length + behind_length), whole = 0;
    for (int64_t i = 0; i < digits && whole <= INT32_MAX && (whole || i < written); i++) {
        size_t at = (size_t)i;
        char digit = at < ahead_length ? ahead[at] : at - ahead_length < behind_length ? behind[at - ahead_length] : '0';
        whole = whole * 10 + (digit - '0');
    }
    return whole;
}

bool cut_decimal(Text text, int64_t *value) {
    Rest rest = {text.text, text.text + text.length};
    const char *ahead, *behind = NULL;
    int64_t power;
    bool minus = take_sign(&rest);
    size_t ahead_length = take_digits(&rest, &ahead), behind_length = 0;
    if (rest.at < rest.end && *rest.at == '.') {
        rest.at++;
        behind_length = take_digits(&rest, &behind);
    }
    if (ahead_length + behind_length == 0 || !take_power(&rest, &power) || rest.at != rest.end) return false;
    *value = whole_part(ahead, ahead_length, behind, behind_length, power);
    if (minus) *value = -*value;
    return true;
}
