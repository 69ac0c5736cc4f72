/* Times by document 01 and their moments by document 02's A12: the days before a year by the number of leap years before it. */
#include "reference_times.h"

#include "paper.h"
#include "reference.h"

#include <stdbool.h>

enum { UTC_TIME = 0x17, GENERALIZED_TIME = 0x18 };

static bool is_leap(int year)
{
    if (year % 100 == 0 && reference_fault != NO_CENTURY_RULE)
        return year % 400 == 0;
    return year % 4 == 0;
}

static int days_of(int year, int month)
{
    switch (month) {
    case 4: case 6: case 9: case 11:
        return 30;
    case 2:
        return is_leap(year) ? 29 : 28;
    default:
        return 31;
    }
}

/* The days from 0000-01-01 to the first of a month. */
static int64_t days_before(int year, int month)
{
    int64_t leap_years = (year + 3) / 4; /* before the year; the year 0 is one */
    if (reference_fault != NO_CENTURY_RULE)
        leap_years += (year + 399) / 400 - (year + 99) / 100;
    int64_t days = 365 * (int64_t)year + leap_years;
    for (int before = 1; before < month; before++)
        days += days_of(year, before);
    return days;
}

static int two_digits(const uint8_t *text)
{
    return 10 * (text[0] - '0') + (text[1] - '0');
}

/* "days through 2049 stand as UTCTime and later ones as GeneralizedTime (RFC 5280; none before 1950)" */
static bool stands_as_generalized(int year)
{
    if (year < 1950)
        return reference_fault == BEFORE_1950_TAKEN;
    return year >= 2050 || (year == 2049 && reference_fault == GENERALIZED_2049);
}

/* The moment of the month, day, hour, minute and second that stand after the year. */
static int64_t moment_in(int year, const uint8_t *text)
{
    int month = two_digits(text), day = two_digits(text + 2);
    int hour = two_digits(text + 4), minute = two_digits(text + 6), second = two_digits(text + 8);
    if (month < 1 || month > 12 || day < 1 || day > days_of(year, month) || hour > 23 || minute > 59 || second > 59)
        return NO_MOMENT;
    return 86400 * (days_before(year, month) + day - 1) + 3600 * hour + 60 * minute + second;
}

/* YYMMDDHHMMSSZ or YYYYMMDDHHMMSSZ. */
int64_t time_moment(uint8_t id, const uint8_t *content, size_t size)
{
    size_t year_digits = id == UTC_TIME ? 2 : 4;
    if (size != year_digits + 11 || content[size - 1] != 'Z')
        return NO_MOMENT;
    for (size_t i = 0; i + 1 < size; i++)
        if (content[i] < '0' || content[i] > '9')
            return NO_MOMENT;
    int year = two_digits(content);
    if (id == UTC_TIME)
        return moment_in(year + (year >= 50 ? 1900 : 2000), content + year_digits);
    year = 100 * year + two_digits(content + 2);
    return stands_as_generalized(year) ? moment_in(year, content + year_digits) : NO_MOMENT;
}

int64_t reference_moment(const uint8_t *bytes, size_t length)
{
    enum { HEADERS = 4 }; /* two, each of an identifier and one length octet */
    if (length < HEADERS || (bytes[0] != 0xA0 && bytes[0] != 0xA1) || (bytes[2] != UTC_TIME && bytes[2] != GENERALIZED_TIME))
        return NO_MOMENT;
    if (bytes[1] != length - 2 || bytes[3] != length - HEADERS)
        return NO_MOMENT;
    return time_moment(bytes[2], bytes + HEADERS, length - HEADERS);
}
