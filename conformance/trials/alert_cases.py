"""Feeds for cases whose entities are mostly alerts: of a world's routes, stops and trips, sound and odd."""

from .feed_cases import Feeds

LAST_MOMENT = 253_370_764_799
SECONDS = (0, 1, 1_714_543_200, LAST_MOMENT - 1, LAST_MOMENT)
LATE_SECONDS = (LAST_MOMENT + 1, 253_402_300_799, 253_402_300_800, 2**63 - 1, 2**63, 2**64 - 1)
TEXTS = (
    "Late", "", "x", "\u00e9t\u00e9", "\u0000\u0001\u0007\b\t\n\u000b\f\r\u001f\u007f\u0080", "\"\\/'<>&",
    "\u2028\u2029\ufeff",
    "\U0001f68b\U0010ffff", "{\"a\":[1]}", "x" * 127, "x" * 128, "\u00e9\"" * 32_500, " ", "0",
)
NAMES = ("alert:S1", "S1", "", "", "\u00e9", "a\"b\\c\n\u0002", "z" * 300, "1")
ODD_ENUMS = (0, 2**31 - 1, -1, -(2**31), 2**31, 2**32 + 3, 2**63, 13, 99)


class Alerts(Feeds):
    """Makes feeds of alerts."""

    def route(self):
        return self.dice.choice(["NOPE", "", "r"] if self.odd(0.3) else self.world.routes)

    def stop(self):
        return self.dice.choice(["NOWHERE", "", "a"] if self.odd(0.3) else self.world.stops)

    def trip(self):
        """A trip on a day, in the world's window or not; any day of any year is kept."""
        dice = self.dice
        name = dice.choice(self.world.trips).id if not self.odd(0.15) else dice.choice(("NOPE", ""))
        fields = [self.again(self.text(1, name), self.text(1, "other"))] if not self.odd(0.1) else []
        if not self.odd(0.1):
            day = str(dice.choice(self.world.window)).replace("-", "")
            if self.odd(0.3):
                day = dice.choice(("", "2024-05-01", "20230229", "20240229", "0", "99991231", "00010101", "00000101",
                    "202405011", "2024050", "2024050\u0661"))
            fields.append(self.again(self.text(3, day), self.text(3, "")))
        if dice.one_in(2):
            fields.append(self.enum(4, dice.choice((0, 3))))
        if dice.one_in(4):
            fields.append(self.text(5, self.route()))
        return fields

    def selector(self):
        """Mostly one of route, stop and trip; else none of them, or two, or all."""
        dice = self.dice
        kinds = [dice.choice((2, 4, 5))]
        if self.odd(0.3):
            kinds = dice.some((2, 4, 5), 3)
        fields = []
        if dice.one_in(3):
            fields.append(self.text(1, dice.choice(("", "x", "R1"))))
        for kind in sorted(kinds):
            if kind == 2:
                fields.append(self.again(self.text(2, self.route()), self.text(2, "")))
            elif kind == 4:
                fields.append(self.embedded(4, [] if self.odd(0.1) else self.trip()))
            else:
                fields.append(self.again(self.text(5, self.stop()), self.text(5, "")))
        return b"".join(self.message(fields))

    def period(self):
        dice = self.dice
        fields = []
        for number in (1, 2):
            if not dice.one_in(4):
                seconds = dice.choice(LATE_SECONDS if self.odd(0.1) else SECONDS)
                fields.append(self.again(self.number(number, seconds), self.number(number, dice.choice(SECONDS))))
        return b"".join(self.message(fields))

    def translated(self, number):
        """A text with no translation, one, or several."""
        dice = self.dice
        translations = []
        for _ in range(dice.choice((0, 1, 1, 1, 2, 3))):
            fields = [self.text(1, dice.choice(TEXTS))]
            if dice.one_in(2):
                fields.append(self.text(2, dice.choice(("fr", "", "en-GB"))))
            translations.append(self.bytes(1, b"".join(self.message(fields))))
        return self.embedded(number, translations)

    def sense(self, number, most):
        """A cause or an effect."""
        dice = self.dice
        value = dice.choice(ODD_ENUMS) if self.odd(0.15) else dice.randint(0, most)
        return self.again(self.number(number, value), self.number(number, dice.randint(0, most)))

    def alert(self):
        dice = self.dice
        fields = [self.bytes(1, self.period()) for _ in range(dice.choice((0, 0, 1, 1, 2, 3)))]
        fields += [self.bytes(5, self.selector()) for _ in range(dice.choice((0, 1, 1, 1, 2, 3, 5, 8)))]
        if not dice.one_in(6):
            fields.append(self.sense(6, 13))
        if not dice.one_in(6):
            fields.append(self.sense(7, 13))
        for number in (10, 11):
            if not dice.one_in(3):
                fields.append(self.translated(number))
        return fields

    def entity(self):
        dice = self.dice
        name = dice.choice(NAMES if self.odd(0.3) else NAMES[:2])
        fields = [self.again(self.text(1, name), self.text(1, ""))]
        if dice.one_in(12):
            fields.append(self.number(2, dice.choice((0, 1, 2**63))))
        if dice.one_in(12):
            fields.append(self.embedded(3, self.trip_update()))
        if not dice.one_in(12):
            fields.append(self.embedded(5, self.alert()))
        return b"".join(self.message(fields))
