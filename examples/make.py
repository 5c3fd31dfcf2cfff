#!/usr/bin/env python3
"""Writes one of the made-up files here to standard output. README.md beside it states the rules.

usage: make.py commutes|orders|flights
"""

import datetime
import sys


DISTRICTS = ["Harbour", "Old Town", "\"Mills, East\"", "Hillside"]
CARRIERS = ["Aurora", "Kestrel", "Lowland Air", "Polar Wings"]
ORIGINS = ["Eastfield", "Harbour", "Mills", "Northport", "Southmere"]


class Draws:
    """A linear congruential generator. A draw of n is a number from 0 to n - 1."""

    def __init__(self, seed):
        self.state = seed

    def draw(self, n):
        self.state = (1103515245 * self.state + 12345) % 2**31
        return self.state // 65536 % n


def degrees_of(day, draws):
    """Day 20 of the year is the coldest, half a year from it the warmest."""
    apart = abs(day - 20)
    return min(apart, 365 - apart) * 24 // 182 - 6 + draws.draw(9)


def rain_of(month, draws):
    """Three days in ten are wet, and five in ten from October on."""
    wet = draws.draw(10) < (5 if month >= 10 else 3)
    amount = 1 + draws.draw(12)
    return amount if wet else 0


def departure_of(weekday, draws):
    """From 7:30 to 8:30 on Monday to Friday, and from 9:00 to 10:00 at the weekend."""
    first = 450 if 1 <= weekday <= 5 else 540
    return first + 10 * draws.draw(7)


def minutes_of(weekday, departure, degrees, rain, draws):
    """The rush of a weekday from 7:40 to 8:10, rain and frost each make the way longer."""
    rush = 14 if 1 <= weekday <= 5 and 460 <= departure <= 490 else 0
    frost = 6 if degrees < 0 else 0
    return 24 + rush + rain // 3 + frost + draws.draw(5)


def commute_of(date, day, draws):
    weekday = date.isoweekday() % 7
    degrees = degrees_of(day, draws)
    rain = rain_of(date.month, draws)
    departure = departure_of(weekday, draws)
    minutes = minutes_of(weekday, departure, degrees, rain, draws)
    return date.month, weekday, departure, minutes, degrees, rain


def print_commutes():
    draws = Draws(2025)
    print("month,weekday,departure,minutes,degrees,rain")
    for day in range(1, 366):
        date = datetime.date(2025, 1, 1) + datetime.timedelta(days=day - 1)
        print(",".join(str(value) for value in commute_of(date, day, draws)))


def order_of(number, draws):
    """The evening is busy, the far districts take longer, and every third order has no rating."""
    date = datetime.date(2025, 3, 1) + datetime.timedelta(days=number // 8)
    hour = 11 + draws.draw(6) if draws.draw(3) == 0 else 17 + draws.draw(5)
    district = DISTRICTS[draws.draw(len(DISTRICTS))]
    dishes = 1 + draws.draw(5)
    cents = dishes * (650 + 50 * draws.draw(12))
    busy = 12 if 18 <= hour <= 20 else 0
    minutes = 15 + 8 * DISTRICTS.index(district) + busy + 2 * dishes + draws.draw(6)
    late = minutes > 60
    stars = (1 + draws.draw(3) if late else 3 + draws.draw(3)) if draws.draw(3) else ""
    notes = ";".join(note for note, test in [("late", late), ("large", dishes >= 4), ("rush", busy > 0)] if test)
    return date.isoformat(), hour, district, dishes, f"{cents // 100}.{cents % 100:02}", minutes, stars, notes


def print_orders():
    draws = Draws(7)
    print("date,hour,district,dishes,price,minutes,stars,notes")
    for number in range(400):
        print(",".join(str(value) for value in order_of(number, draws)))


def is_stormy(month, origin, draws):
    """In winter every second flight from Northport, else one in ten."""
    return draws.draw(10) < (5 if month in (12, 1, 2) and origin == "Northport" else 1)


def is_behind(hour, carrier, draws):
    """Delays pile up over the day, most of all where an aircraft turns round in half an hour."""
    chance = hour - 8 if carrier == "Kestrel" else (hour - 8) // 4
    return draws.draw(20) < chance


def flight_of(number, draws):
    date = datetime.date(2025, 1, 1) + datetime.timedelta(days=number // 8)
    hour = 6 + draws.draw(17)
    carrier = CARRIERS[draws.draw(len(CARRIERS))]
    origin = ORIGINS[draws.draw(len(ORIGINS))]
    tenths = 1800 + draws.draw(12000)
    causes = []
    delay = draws.draw(11) - 6
    if is_stormy(date.month, origin, draws):
        causes.append("weather")
        delay += 35 + draws.draw(60)
    if is_behind(hour, carrier, draws):
        causes.append("late aircraft")
        delay += 10 + hour + draws.draw(30)
    if draws.draw(25) == 0:
        causes.append("crew")
        delay += 20 + draws.draw(40)
    told = "" if draws.draw(50) == 0 else delay
    return date.isoformat(), hour, carrier, origin, f"{tenths // 10}.{tenths % 10}", told, ";".join(causes)


def print_flights():
    draws = Draws(1)
    print("date,hour,carrier,origin,distance,delay,causes")
    for number in range(8 * 365):
        print(",".join(str(value) for value in flight_of(number, draws)))


PRINTERS = {"commutes": print_commutes, "orders": print_orders, "flights": print_flights}


def main():
    if len(sys.argv) != 2 or sys.argv[1] not in PRINTERS:
        sys.exit(__doc__)
    PRINTERS[sys.argv[1]]()


if __name__ == "__main__":
    main()
