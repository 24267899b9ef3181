#!/usr/bin/env python3
"""texts.py FOLDER: writes the texts of `run`, about a million bytes each and always the same.

They are made from a seed by a generator of their own, so no version of Python changes them.
"""
import os
import sys

SIZE = 1_000_000


class Chance:
    """Numbers in no order, from a seed: a linear congruence of 64 bits, of which the upper half counts."""

    def __init__(self, seed):
        self.state = seed

    def below(self, n):
        self.state = (self.state * 6364136223846793005 + 1442695040888963407) % 2**64
        return (self.state >> 33) % n

    def between(self, low, high):
        return low + self.below(high - low + 1)

    def of(self, things):
        return things[self.below(len(things))]

    def some(self, things, low, high):
        return [self.of(things) for _ in range(self.between(low, high))]

    def once_in(self, n):
        return self.below(n) == 0


WORDS = (
    "river stone under willow market where nobody looks twice and the old ferry waits for rain until evening comes "
    "with cold wind over low hills some letters never reach their town because a road was washed away last spring so "
    "people learned to walk along the ridge carrying bread salt lamp oil and news of every kind from house to house "
    "while children count geese boats clouds anything that moves in the valley below it is said that summer begins "
    "when the miller sweeps her yard twice before noon but I would not trust him with such an important matter"
).split()
PLACES = ["Ashford", "Brindle", "Carrow", "Dunmore", "Eastwick", "Fernhill"]
KEYS = ["width", "height", "offset", "name_of", "limit", "page", "token", "user_id", "retry", "cache_key"]
HOSTS = ["node", "mail", "shop", "files", "intern-web", "api"]
RUSSIAN = "река камень под ивой рынок где никто дважды не смотрит и старый паром ждёт дождя вечер приходит ветер над холмами".split()
CHINESE = "山水木火土金日月風雲春夏秋冬東西南北天地人"
SIGNS = ["🌧", "🌊", "🏠", "🐦", "€", "→"]


def sentence(chance):
    words = chance.some(WORDS, 5, 16)
    if chance.once_in(6):
        words[chance.below(len(words))] = chance.of(PLACES)
    if chance.once_in(9):
        at = chance.below(len(words))
        words.insert(at, words[at])
    text = " ".join(word + "," if chance.once_in(11) else word for word in words[:-1]) + " " + words[-1]
    text = text[0].upper() + text[1:] + chance.of("....?!")
    return f'"{text}"' if chance.once_in(8) else text


def prose(chance):
    lines = [" ".join(sentence(chance) for _ in range(chance.between(1, 2))) for _ in range(chance.between(2, 6))]
    return "\n".join(line + "  " if chance.once_in(7) else line for line in lines) + "\n\n"


def time_of_day(chance):
    return f"{chance.below(24):02}:{chance.below(60):02}:{chance.below(60):02}"


def log(chance):
    day = f"{chance.between(2015, 2029)}-{chance.between(1, 12):02}-{chance.between(1, 28):02}"
    address = ".".join(str(chance.below(256)) for _ in range(4))
    path = "/" + "/".join(chance.some(KEYS, 1, 4))
    query = f"?{chance.of(KEYS)}={chance.below(10000)}&{chance.of(KEYS)}={chance.of(WORDS)}" if chance.once_in(3) else ""
    level = "ERROR" if chance.once_in(40) else chance.of(["info", "info", "debug", "warn"])
    return (
        f"{day}T{time_of_day(chance)}Z {level} {chance.of(HOSTS)}-{chance.between(1, 40)} {address} "
        f'"{chance.of(["GET", "PUT", "POST"])} {path}{query}" {chance.of([200, 201, 304, 404, 500])} {chance.below(90000)}\n'
    )


def table(chance):
    name = f"{chance.of(WORDS)}.{chance.of(WORDS)}{chance.below(100)}"
    note = " ".join(chance.some(WORDS, 0, 5))
    if chance.once_in(4):
        note = f'"{note}, ""{chance.of(WORDS)}"" and more"'
    price = f"{chance.of('$€')}{chance.below(2000)}.{chance.below(100):02}"
    mail = f"{name}@{chance.of(HOSTS)}.example.{chance.of(['com', 'org', 'net'])}"
    return f"{chance.below(10**6)},{chance.of(PLACES)},{mail},{price},{note},#{chance.below(2**24):06x}\n"


def statement(chance):
    key, other = chance.of(KEYS), chance.of(KEYS)
    return chance.of(
        [
            f"    if ({key} >= 0x{chance.below(65536):X}) return {other}({key}, {chance.below(100)});",
            f"    {key} = {other} + {chance.below(1000)}.{chance.below(100)}e-{chance.below(9)};",
            f'    print("{" ".join(chance.some(WORDS, 1, 5))} \\"{key}\\"\\n", {other});',
            f"    let {key}Of{other.title().replace('_', '')} = {{{{ {other} }}}}; // {sentence(chance)}",
            f"    /* {' '.join(chance.some(WORDS, 4, 20))} */",
            f"    <a href='https://{chance.of(HOSTS)}.example.org/{key}' class=\"{other}\">{chance.of(WORDS)}</a>   ",
        ]
    )


def code(chance):
    lines = [statement(chance) for _ in range(chance.between(3, 12))]
    return "\n".join([f"fn {chance.of(KEYS)}_{chance.below(100)}() {{", *lines, "}", ""])


def bases(chance):
    return "".join(chance.of("ACGT") for _ in range(70)) + "\n"


def mixed(chance):
    kind = chance.below(10)
    if kind < 6:
        return " ".join(chance.some(RUSSIAN, 3, 12)).capitalize() + chance.of(".?!") + " "
    if kind < 8:
        return "".join(chance.some(CHINESE, 5, 25)) + "。"
    if kind < 9:
        return sentence(chance) + "\n"
    return chance.of(SIGNS) + str(chance.below(1000)) + " "


def text_of(part, seed):
    chance, parts, size = Chance(seed), [], 0
    while size < SIZE:
        parts.append(part(chance))
        size += len(parts[-1].encode())
    return "".join(parts)


TEXTS = {"prose": prose, "log": log, "table": table, "code": code, "bases": bases, "mixed": mixed}


def write_all(folder):
    os.makedirs(folder, exist_ok=True)
    for seed, (name, part) in enumerate(TEXTS.items(), start=1):
        with open(os.path.join(folder, name), "w", encoding="utf-8", newline="") as file:
            file.write(text_of(part, seed))


if __name__ == "__main__":
    if len(sys.argv) != 2:
        sys.exit(__doc__)
    write_all(sys.argv[1])
