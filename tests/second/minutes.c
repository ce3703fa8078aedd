#include "minutes.h"

/* Whatever 400 Gregorian years in a row have as many days.  Years 0000 to 1999
   are five such eras, 2000 to 9999 twenty. */
enum { ERA_YEARS = 400, ERA_DAYS = 146097, DAY_MINUTES = 1440 };

static const int64_t FIRST_MINUTE = -(int64_t)5 * ERA_DAYS * DAY_MINUTES;
static const int64_t BEHIND_LAST_MINUTE = (int64_t)20 * ERA_DAYS * DAY_MINUTES;

static int days_of_month(int year, int month)
{
    static const int days[13] = {0, 31, 28, 31, 30, 31, 30, 31, 31, 30, 31, 30, 31};
    bool leap = (year % 4 == 0 && year % 100 != 0) || year % 400 == 0;
    return days[month] + (month == 2 && leap ? 1 : 0);
}

/* ---- from digits to the minute ---- */

/* Days from 1 January 2000 on, by years that begin on 1 March: each has the
   leap day, if any, as its last, and five months from March or August on have
   153 days.  Eras begin on 1 March 0000 and every 400 years later, so on 1
   March 2000 too, 60 days after 1 January.  Within an era every fourth year
   ends with a leap day but every hundredth, and the era itself does. */
static int64_t days_of_date(int year, int month, int day)
{
    int march_month = (month + 9) % 12; /* March is 0, February 11 */
    int march_year = (month <= 2 ? year - 1 : year) + ERA_YEARS; /* an era late: none is below 0 */
    int era = march_year / ERA_YEARS - 1;
    int in_era = march_year % ERA_YEARS;
    int day_of_year = (153 * march_month + 2) / 5 + day - 1;
    int day_of_era = 365 * in_era + in_era / 4 - in_era / 100 + day_of_year;
    return (int64_t)(era - 5) * ERA_DAYS + day_of_era + 60;
}

bool minute_of(const uint8_t digits[TIME_DIGITS], int64_t *minute)
{
    for (int i = 0; i < TIME_DIGITS; i++)
        if (digits[i] > 9)
            return false;
    int year = digits[0] * 1000 + digits[1] * 100 + digits[2] * 10 + digits[3];
    int month = digits[4] * 10 + digits[5];
    int day = digits[6] * 10 + digits[7];
    int of_hour = digits[8] * 10 + digits[9];
    int of_minute = digits[10] * 10 + digits[11];
    if (month < 1 || month > 12 || day < 1 || day > days_of_month(year, month))
        return false;
    if (of_hour > 23 || of_minute > 59)
        return false;
    *minute = days_of_date(year, month, day) * DAY_MINUTES + of_hour * 60 + of_minute;
    return true;
}

/* ---- from the minute to digits ---- */

bool is_minute(int64_t minute)
{
    return minute >= FIRST_MINUTE && minute < BEHIND_LAST_MINUTE;
}

/* Days from 0000.01.01 to the first of January of a year: 365 each, and a leap
   day for every fourth year before it but the hundredth ones, the four
   hundredth ones excepted.  Year 0000 is one of all three. */
static int64_t days_before_year(int64_t year)
{
    return 365 * year + (year + 3) / 4 - (year + 99) / 100 + (year + 399) / 400;
}

/* The year of a day counted from 0000.01.01 on: that of years of equal length,
   put right where the year before or behind it has the day. */
static int year_of_day(int64_t day)
{
    int64_t year = day * ERA_YEARS / ERA_DAYS;
    while (days_before_year(year) > day)
        year--;
    while (days_before_year(year + 1) <= day)
        year++;
    return (int)year;
}

static void put_number(uint8_t *digits, int value, int count)
{
    for (int i = count - 1; i >= 0; i--) {
        digits[i] = (uint8_t)(value % 10);
        value /= 10;
    }
}

void put_digits(int64_t minute, uint8_t digits[TIME_DIGITS])
{
    int64_t from_first = minute - FIRST_MINUTE;
    int64_t day = from_first / DAY_MINUTES;
    int of_day = (int)(from_first % DAY_MINUTES), year = year_of_day(day), month = 1;
    int left = (int)(day - days_before_year(year));
    while (left >= days_of_month(year, month))
        left -= days_of_month(year, month++);
    put_number(digits, year, 4);
    put_number(digits + 4, month, 2);
    put_number(digits + 6, left + 1, 2);
    put_number(digits + 8, of_day / 60, 2);
    put_number(digits + 10, of_day % 60, 2);
}
