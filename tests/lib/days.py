"""Civil days as the C library gives them, by localtime(3) under the environment variable TZ."""
import datetime
import time


def day_of(moment):
    shown = time.localtime(moment)
    date = datetime.date(shown.tm_year, shown.tm_mon, shown.tm_mday)
    return date.toordinal() - datetime.date(1970, 1, 1).toordinal()
