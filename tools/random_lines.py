"""Random lines of feeds for tests, good and bad."""


def body(rng, kind):
    if kind == "state":
        return f"s{rng.randint(0, 3)}"
    if kind == "discrete":
        return f"d{rng.choice((0, 7, -1, 2147483647, -2147483648))}"
    return f"r{rng.getrandbits(32):08x}"


def feed_line(rng, centre, verbs=("update", "update", "update", "table", "tag", "ask")):
    """A line of a feed over these tables; a table is chosen where they have no such row."""
    verb, key = rng.choice(verbs), rng.choice(centre.keys())
    tables = centre.tables_of(key)
    if verb == "update" and centre.points:
        point = rng.choice(centre.points)
        return (f"update {point.name} {body(rng, point.kind)} {rng.randint(0, 63):02x} "
                f"{rng.choice((0, 1700000000, 2147483647))} {rng.randint(0, 999)}")
    if verb == "tag" and centre.devices:
        reason = rng.choice(("", "at%20work", "A" * 64, "%7e%25"))
        return f"tag {rng.choice(centre.devices).name} {rng.randint(0, 2)} v{reason}"
    if verb == "ask":
        return f"ask {key} {rng.randint(1, max(it.offered() for it in tables))}"
    return f"table {key} {rng.randrange(len(tables))}"


SPOILT = ("", " ", "  ", "0", "-", "-0", "00", "+1", "9", "256", "1000", "2147483648", "4294967296",
          "99999999999999999999", "s4", "d", "d01", "r0000000A", "3F", "40", "%", "%41", "%0a",
          "%7f", "v", "NOPE", "stop", "tick", "open", "\t", "\r", "#", "\xe9", "\x00", "\xb2")


def spoilt(rng, line):
    """A line that was changed somewhere, and may be bad then."""
    words = line.split(" ")
    place = rng.randrange(len(words))
    how = rng.randrange(8)
    if how == 0:
        words[place] = rng.choice(SPOILT)
    elif how == 1:
        words[place] += rng.choice(SPOILT)
    elif how == 2:
        words[place] = rng.choice(SPOILT) + words[place]
    elif how == 3:
        del words[place]
    elif how == 4:
        words.insert(place, rng.choice(SPOILT))
    elif how == 5:
        words[place] = words[place][:-1]
    elif how == 6:
        words[place] = words[place].swapcase()
    else:
        words[place], words[-1] = words[-1], words[place]
    return " ".join(words)


def some_line(rng, centre):
    """A line of a feed, or one that was spoilt, or something else; without its LF."""
    line = feed_line(rng, centre)
    chance = rng.random()
    if chance < 0.35:
        return spoilt(rng, line)
    if chance < 0.40:
        return rng.choice(("", "#", "# a remark", "\r", "#\t", line + "\r", line.replace(" ", "  "),
                           "stop now", "tick 5", "orders", "open 1 A", "x", "\r\r", line + "\r\r",
                           "tag V0 0 v" + "%20" * 64, "tag V0 0 v" + "A" * 65, "table A 0 "))
    return line
