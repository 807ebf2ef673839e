"""The answers of another reader of documents 01 and 02: tests/data/boards-vectors.xz and lent-vectors.xz, a line of JSON, then the images; and, a
line of JSON each, own-vectors.xz on the read of wish 1, width-vectors.xz on the widths of wish 3 and jobs-vectors.xz on the jobs of wish 4. Where
the model beside this file answers otherwise, an assertion stops the script. All but the last two have ROM rows of seven words, which are made rows
of eight as they are read, and answers without widths, with which the model's are compared without theirs. A count of all but the last is that of
any one job."""
import json, lzma, os

import opening, rows
from history import History
from opening import ALL_ZERO, JOBS, Call, Image, Lent

DATA = os.path.join(os.path.dirname(os.path.abspath(__file__)), "..", "data")


def unpacked(name):
    text, _, images = lzma.open(os.path.join(DATA, name)).read().partition(b"\n")
    return json.loads(text), images


def pins_words(item):
    p = item["pins"]
    if item["number"]:
        return [item["number"]] + [0] * 77
    return (
        [0] + p["ports"] + [p["rom_pins"]] + p["data"] + p["addr"] + [p["cs1"], p["cs2"], p["cs3"]] + p["reserved"]
        + [p[k] for k in ("x1", "x2", "ce", "oe", "x_pull", "swclk", "swdio")] + p["sel"] + [p[k] for k in ("sel_pull", "status", "extended")]
        + (p["data2"] or [0] * 8) + (p["addr2"] or [0] * 16)
    )


def report_words(a):
    h, e, s = a["header"], a["extra info"], a["sets"]
    words = h["version"] + h["commit"] + [h["line"], h["storage"], h["freq"]] + [int(f) for f in h["flags"]] + [int(h["counting"])] + h["boot_config"]
    for item in ("build date", "hardware revision"):
        words += [a[item][k] for k in ("number", "offset", "length")]
    pio = 2 if e["pio_default"] is None else int(e["pio_default"])
    extra = [0, 0, 0, 0, 2] if e["number"] else [e["rtt_ptr"], int(e["dfu"]), e["usb_port"], e["vbus_pin"], pio]
    words += [e["number"]] + extra + [e["runtime_ptr"]]
    words += [opening.NOT_LOOKED_FOR if a["metadata"] == "not looked for" else a["metadata"], s["number"], s["set_count"], s["served"]]
    return words + pins_words(a["pins"])


def flat(table):
    return [w for row in table for w in row]


def lengths_of(v):
    """The lengths of the lent rows; ROM rows were lent for seven words each."""
    return v["set_words"], rows.widened_length(v["rom_words"])


def compare_calls(calls, lent, image):
    """The calls, after each was compared."""
    out = []
    for kind, i, address, levels, n, count, reply in calls:
        call = Call(kind, i, address, levels, n, count)
        answer = list(call.answer(lent, image))
        if call.reads():
            answer[1] = answer[1].hex()
        assert answer == reply, (kind, i, address, levels, n, count, reply, answer)
        out.append(call)
    return out


def boards():
    """image, settings, set words, ROM words, the opening, the calls"""
    told, images = unpacked("boards-vectors.xz")
    at = 0
    for v in told:
        image, settings, a, lengths = images[at : at + v["length"]], v["settings"], v["answer"], lengths_of(v)
        at += v["length"]
        o = opening.opening(image, settings, *lengths)
        assert o.number == a["refused"], v
        calls = []
        if o.number == 0:
            words = opening.without_widths(o.words)
            assert words == report_words(a), (v, words, report_words(a))
            assert [flat(o.sets), rows.narrow(o.roms)] == [a["set rows"], a["rom rows"]], v
            assert [o.image.reach(), o.image.tried, o.image.shown] == [a["reach"], a["reads tried"], a["reads tried, shown"]], v
            calls = compare_calls(v["calls"], opening.lent_of(o, settings, *lengths), image)
        yield image, settings, *lengths, o, calls


def lent():
    """image, what is lent, the calls"""
    told, images = unpacked("lent-vectors.xz")
    for v in told:
        image, (flash, cs0, _) = images[v["at"] : v["at"] + v["length"]], v["settings"]
        given = Lent(flash, cs0, v["line"], pins_words(v["pins"]), v["served"], v["set_rows"], rows.widened(v["rom_rows"]))
        yield image, given, compare_calls(v["calls"], given, image)


# ---- the read of wish 1, each with the old read's reply beside it


def image_of(v):
    """Of an image are kept the bytes that an answer rests on, as offset and bytes; the others are 0, so that a read of a wrong place shows."""
    image = bytearray(v["length"])
    for at, text in v["bytes"]:
        image[at : at + len(text) // 2] = bytes.fromhex(text)
    return bytes(image)


def both_reads(calls):
    """Calls as set, address, levels, count, the new reply and the old one, each as two calls of compare_calls."""
    for i, address, levels, count, reply, old in calls:
        yield "own", i, address, levels, 1, count, reply
        yield "logical", i, address, levels, 1, count, old


def own_boards():
    """image, settings, set words, ROM words, the calls, the cuts; the reads of a cut are compared with what that cut answered"""
    for v in unpacked("own-vectors.xz")[0]["opened"]:
        image, lengths = image_of(v), lengths_of(v)
        lent = opening.lent_of(opening.opening(image, v["settings"], *lengths), v["settings"], *lengths)
        first = [("own", i, address, levels, 1, 0, reply) for i, address, levels, reply in v["first"]]
        calls = compare_calls([*both_reads(v["calls"]), *first], lent, image)
        for take, number, replies in v["cuts"]:
            cut = opening.opening(image[:take], v["settings"], *lengths)
            assert cut.number == number and len(replies) == (0 if number else len(first)), (v["settings"], take)
            compare_calls([c[:6] + (reply,) for c, reply in zip(first, replies)], opening.lent_of(cut, v["settings"], *lengths), image[:take])
        yield image, v["settings"], *lengths, calls, [take for take, _, _ in v["cuts"]]


def lent_as_told(v, roms):
    """The pins are as lent beside a refused pins item too: number, ROM pins, data, address, control."""
    number, rom_pins, *pins = v["pins"]
    words = [number, 0, 0, 0, 0, 0, rom_pins] + pins[:27] + [0] * 3 + pins[27:] + [0] * 37
    return Lent(*v["settings"][:2], v["line"], words, v["served"], v["set_rows"], roms)


def own_lent():
    """image, what is lent, the calls"""
    for v in unpacked("own-vectors.xz")[0]["lent"]:
        image, given = image_of(v), lent_as_told(v, rows.widened(v["rom_rows"]))
        yield image, given, compare_calls(both_reads(v["calls"]), given, image)


# ---- the widths of wish 3; ROM rows have eight words


def width_strings():
    """image, base, pointer, the reply"""
    for image, base, pointer, reply in unpacked("width-vectors.xz")[0]["strings"]:
        yield bytes.fromhex(image), base, pointer, reply


def compare_opening(o, told):
    """An opening as told: its number and, where it opens, both strings, the sets item and the names, and of a whole board the rows."""
    assert o.number == told["opening"], (o.number, told)
    names = [[reason, offset, length, width] for *_, offset, length, reason, width in o.roms]
    shown = [o.part(opening.DATE), o.part(opening.REVISION), o.part(opening.SETS), names]
    if o.number == 0:
        assert shown == [told[k] for k in ("build_date", "revision", "sets", "names")], (shown, told)
    if "set_rows" in told:
        assert [flat(o.sets), flat(o.roms)] == [told["set_rows"], told["rom_rows"]], (o.sets, o.roms, told)


def width_boards():
    """image, settings, set words, ROM words, no calls, the cuts, the opening; a board that is told by its cuts alone has the whole among them"""
    for v in unpacked("width-vectors.xz")[0]["opened"]:
        image, settings, lengths, cuts = image_of(v), v["settings"], (v["set_words"], v["rom_words"]), v.get("cuts", [])
        o = opening.opening(image, settings, *lengths)
        assert "opening" in v or len(image) in [told["take"] for told in cuts], v
        if "opening" in v:
            compare_opening(o, v)
        for told in cuts:
            compare_opening(opening.opening(image[: told["take"]], settings, *lengths), told)
        yield image, settings, *lengths, (), [told["take"] for told in cuts], o


def width_lent():
    """image, what is lent, the calls"""
    for v in unpacked("width-vectors.xz")[0]["lent"]:
        image, given = image_of(v), lent_as_told(v, v["rom_rows"])
        yield image, given, compare_calls([(kind, i, address, levels, 1, 0, reply) for kind, i, address, levels, reply in v["calls"]], given, image)


# ---- the jobs of wish 4; ROM rows have eight words, and the images stand once each


def job_calls(v):
    """A line's calls, each with its job, as in a history."""
    return [(Call(kind, i, address, levels, n), job) for kind, i, address, levels, n, job, *_ in v["calls"]]


def compare_reply(v, call, job, answer, reply):
    """A reply is without the count, which is among those beside it."""
    shown = [answer[0], answer[1].hex()] if call.reads() else list(answer)
    assert shown == reply, (v["note"], vars(call), job, answer, reply)


def compare_history(v, lent, image):
    """The history, after each reply and all counts after each call were compared."""
    history = History(v["start"], job_calls(v))
    for (call, job), (answer, counts), (*_, reply, told) in zip(history.asked, history.steps(lent, image), v["calls"]):
        compare_reply(v, call, job, answer, reply)
        assert counts == told, (v["note"], vars(call), job, counts, told)
        assert not call.reads() or answer[2] == (told[job] if job < JOBS else 0), (v["note"], vars(call), job, answer, told)
    return history


def compare_firsts(v, replies, lent, image):
    """Each call is the first after the opening."""
    assert len(replies) == len(v["calls"]), v
    for (call, job), reply in zip(job_calls(v), replies):
        compare_reply(v, call, job, call.on(lent, image, job, ALL_ZERO)[0], reply)


def job_boards():
    """image, settings, set words, ROM words, the history, the cuts; of a board that is cut each call was told as the first after the opening"""
    told = unpacked("jobs-vectors.xz")[0]
    images = [image_of(v) for v in told["images"]]
    for v in told["opened"] + told["cuts"]:
        image, settings, lengths = images[v["image"]], v["settings"], (v["set_words"], v["rom_words"])
        lent = opening.lent_of(opening.opening(image, settings, *lengths), settings, *lengths)
        if "start" in v:
            yield image, settings, *lengths, compare_history(v, lent, image)
            continue
        compare_firsts(v, [reply for *_, reply in v["calls"]], lent, image)
        for take, number, replies in v["cuts"]:
            cut = opening.opening(image[:take], settings, *lengths)
            assert cut.number == number and (number == 0 or replies == []), (v, take)
            if number == 0:
                compare_firsts(v, replies, opening.lent_of(cut, settings, *lengths), image[:take])
        yield image, settings, *lengths, History(ALL_ZERO, job_calls(v)), [take for take, _, _ in v["cuts"]]


def kept(history, lent, image):
    """The image with the bytes that the history's replies rest on, the others 0."""
    noted = Image(image)
    history.steps(lent, noted)
    out = bytearray(len(image))
    for at, n in noted.spans:
        out[at : at + n] = image[at : at + n]
    return bytes(out)


def job_lent():
    """image, what is lent, the history"""
    told = unpacked("jobs-vectors.xz")[0]
    images = [image_of(v) for v in told["images"]]
    for v in told["lent"]:
        given = lent_as_told(v, v["rom_rows"])
        image = kept(History(v["start"], job_calls(v)), given, images[v["image"]])
        yield image, given, compare_history(v, given, image)
