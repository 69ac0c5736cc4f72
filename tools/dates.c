/* Dates counted in the Gregorian calendar, year by year and month by month; and intervals in days, hours, minutes and seconds. */
#include "dates.h"

#include <inttypes.h>
#include <stdio.h>

enum { ROOM = 64 }; /* characters, enough for any date and any count of a unit */

enum { MINUTE = 60, HOUR = 60 * MINUTE, DAY = 24 * HOUR }; /* in seconds */

enum { CYCLE_YEARS = 400, CYCLE_DAYS = 146097 }; /* after which the calendar repeats itself */

static const int month_days[] = {31, 28, 31, 30, 31, 30, 31, 31, 30, 31, 30, 31};
enum { FEBRUARY = 1 };

static const struct {
    const char *name;
    int64_t seconds;
} units[] = {{"day", DAY}, {"hour", HOUR}, {"minute", MINUTE}, {"second", 1}};

enum { UNITS = sizeof units / sizeof *units };

static bool is_leap(int64_t year)
{
    return year % 4 == 0 && (year % 100 != 0 || year % 400 == 0);
}

static int64_t days_of_year(int64_t year)
{
    return is_leap(year) ? 366 : 365;
}

static int64_t days_of_month(int64_t year, int month)
{
    return month_days[month] + (month == FEBRUARY && is_leap(year));
}

void put_date(text *out, int64_t moment)
{
    char words[ROOM];
    int64_t days = moment / DAY, year = days / CYCLE_DAYS * CYCLE_YEARS;
    int month = 0, seconds = (int)(moment % DAY);
    for (days %= CYCLE_DAYS; days >= days_of_year(year); year++)
        days -= days_of_year(year);
    for (; days >= days_of_month(year, month); month++)
        days -= days_of_month(year, month);
    snprintf(words, sizeof words, "%04" PRId64 "-%02d-%02d %02d:%02d:%02d UTC", year, month + 1, (int)days + 1, seconds / HOUR,
        seconds % HOUR / MINUTE, seconds % MINUTE);
    put_words(out, words);
}

void put_interval(text *out, int64_t seconds)
{
    char words[ROOM];
    int64_t left = seconds < 0 ? -seconds : seconds;
    for (size_t i = 0; i < UNITS; left %= units[i++].seconds) {
        int64_t count = left / units[i].seconds;
        if (count == 0)
            continue;
        snprintf(words, sizeof words, "%" PRId64 " %s%s ", count, units[i].name, count == 1 ? "" : "s");
        put_words(out, words);
    }
    put_words(out, seconds < 0 ? "earlier" : "later");
}
