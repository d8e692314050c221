"""Compares the library with the models in text.py and phrases.py on random texts, or on the lines of
files.

Usage: python3 tests/models/compare.py COUNT [SEED]
       python3 tests/models/compare.py --lines FILE..

It needs the Python module, as `pip install ./bindings/python` installs it. A text is made of pieces of
numerals and of what is around numbers in a text, or of a sentence of tests/corpus.tsv or
tests/phrases.tsv in which some characters are changed. What is found in it, with values, flags and
doubts, and what it becomes in figures, by random options, have to be the same; and so do its phrases
with their kinds, states and values, and what it becomes in figures with them.
"""
import random
import sys
from datetime import date, time, timedelta
from decimal import Decimal
from fractions import Fraction
from pathlib import Path

import phrases as of_phrases
import text as model

TESTS = Path(__file__).resolve().parent.parent
PIECES = (
    list("零〇一二两兩三四五六七八九0123456789０１２３４５６７８９") * 2
    + list("十百千万萬亿億兆个個") * 3
    + list("点點.．,，%％‰负負-−－¥￥ 又下廿卅到至~、年月日号时分秒元块角度米斤半折成比有单")
    + "分之 分之 百分之 零下 几 数 多 好几 小时 分钟 千瓦 千克 兆字节 双十一 十二指肠 三十六计".split()
    + "进制 项 划线 号 室 级 早上 下午 度 倍 个人 三个亿 两千 一百 二十 五 km GB a _ : / A-1".split()
    + list("的人在，。\n") * 2
    + "下午 晚上 凌晨 周 星期 早 年 月 日 点 分 秒 半 刻 个半小时 小时 分钟 比 米 度 到 至 : - / 2026年 三月".split()
    + "钟头 个小时 秒钟 时 点半 晚 午后 傍晚 夜里 今早 周五 礼拜 星期六 年半 一九 二零二六年 ： 05 30 之 初 前 间 多 第 每 夜".split()
    + "左右 前 前提 以前 之后 以後 楼 栋 一零三 〇 十一放 十 公里 公斤 公顷 升 秒 克 元 美元 平方米 毫升 分鐘 半 个百分点".split()
    + "○ 会儿 一时半会 半价 每晚 今晚 清早 许 整 档 成品".split()
    + "三块五 两毛五 三元五角 零五分 块 毛 角 分 钱 元 ￥ ¥3.50 一斤 两瓶 的 卖 包邮 形 钟 旦 月租 人民币 港币 五毛钱 一分钱".split()
    + "第 条 次全 规 办公室 号码 房 国集团 去 再 只吊 十分".split()
    + "《 》 乾隆 萬曆 农历 民國 底 份 上旬 天 明天 每天 钟 点钟 之前 今晨 周三 华 层 几 仟 十五十六 三零二 百分之五 克 农历八月".split()
)
OPTIONS = ("about", "one_character", "doubtful", "canonical")


def sentences():
    for name, column in (("corpus.tsv", 3), ("phrases.tsv", 2)):
        for row in (TESTS / name).read_text(encoding="utf-8").splitlines():
            if not row.startswith("# "):
                yield row.split("\t")[column]


def random_text(source, known):
    if source.random() < 0.3:
        characters = list(source.choice(known))
        for _ in range(source.randrange(4)):
            characters[source.randrange(len(characters))] = source.choice(PIECES)
        return "".join(characters)
    return "".join(source.choice(PIECES) for _ in range(source.randrange(1, 14)))


def random_texts(count, source):
    known = list(sentences())
    return (random_text(source, known) for _ in range(count))


def lines_of(paths):
    """The lines of files that have a Han character, each once, in pieces of 1000 characters."""
    known = set()
    for path in paths:
        for line in Path(path).read_text(encoding="utf-8", errors="replace").splitlines():
            for piece in (line[i : i + 1000] for i in range(0, len(line), 1000)):
                if piece not in known and any(map(model.is_han, piece)):
                    known.add(piece)
                    yield piece


def options(source):
    chosen = {it: source.random() < 0.2 for it in OPTIONS}
    return chosen, source.random() < 0.3


def found_by_library(library, string):
    for it in library.find_quantities(string):
        value = it.value()
        quantity = value and (value.numerator, value.denominator, value.form.value)
        doubt = it.doubt.value if it.doubt else None
        yield it.start, it.end, quantity, it.is_about, it.is_one_character, doubt


def found_by_model(string):
    for it in model.find_quantities(string):
        quantity = it.quantity and tuple(it.quantity)
        yield it.start, it.end, quantity, it.is_about, it.is_one_character, it.doubt


# The kinds of phrases in the model, by those of the library; `dates` is for both.
KINDS = {"months": "dates", "days": "dates"}


def plain(value):
    """The value of a phrase, as the model has it; of a time whose hour of 24 is known, just that."""
    if isinstance(value, time):
        return value.hour, value.minute, value.second
    if isinstance(value, timedelta):
        return value // timedelta(seconds=1)
    if isinstance(value, date) or type(value).__name__ == "PartialDate":
        return value.year, value.month, value.day
    if type(value).__name__ == "ClockTime":
        hour = value.hour_of_day or f"{value.hour}?"
        return hour, value.minute, value.second
    if isinstance(value, Decimal):
        return Fraction(value)
    if isinstance(value, tuple) and not isinstance(value[0], int):
        return tuple(Fraction(it.numerator, it.denominator) for it in value)
    return value


def phrases_by_library(library, string):
    for it in library.find_phrases(string):
        if isinstance(it, library.Phrase):
            kind = KINDS.get(it.kind.value, it.kind.value)
            yield it.start, it.end, kind, it.state.value, plain(it.value)
        else:
            yield it.start, it.end


def in_fen(yuan):
    """The value of a sum of money, which the library has if it is a whole number of fen below 10^18."""
    return yuan if (100 * yuan).denominator == 1 and 100 * yuan < 10**18 else None


def phrases_by_model(string):
    for it in of_phrases.find_phrases(string):
        if not isinstance(it, of_phrases.Phrase):
            yield it.start, it.end
            continue
        value, state = it.value, "doubtful" if it.is_doubtful else "certain"
        if it.kind == "time" and value:
            hour, minute, second, of_day = value
            value = f"{hour}?" if of_day is None else of_day, minute, second
        if it.kind == "money":
            yield it.start, it.end, it.kind, state, in_fen(value)
            continue
        yield it.start, it.end, it.kind, "refused" if value is None else state, value


def difference_of_phrases(library, string, chosen, expanded, is_compact):
    left, right = list(phrases_by_library(library, string)), list(phrases_by_model(string))
    if left != right:
        return f"{string!r}\n  library {left}\n  model   {right}"
    chosen = dict(chosen, compact=is_compact)
    left = library.text_to_figures(string, expanded=expanded, **chosen)
    style = "expanded" if expanded else "kept"
    right = of_phrases.text_to_figures(string, style=style, **chosen)
    if left != right:
        return f"{string!r} {chosen} expanded={expanded}\n  library {left!r}\n  model   {right!r}"
    return None


def difference(library, source, string):
    """What differs on a text, in words; None if nothing does."""
    left, right = list(found_by_library(library, string)), list(found_by_model(string))
    if left != right:
        return f"{string!r}\n  library {left}\n  model   {right}"
    chosen, expanded = options(source)
    left = library.quantities_to_figures(string, expanded=expanded, **chosen)
    right = model.to_figures(string, style="expanded" if expanded else "kept", **chosen)
    if left != right:
        return f"{string!r} {chosen} expanded={expanded}\n  library {left!r}\n  model   {right!r}"
    is_compact = source.random() < 0.3
    return difference_of_phrases(library, string, chosen, expanded, is_compact)


def differences(library, source, texts):
    found = (difference(library, source, it) for it in texts)
    return [it for it in found if it]


def main():
    import chinese_number

    first, *others = sys.argv[1:]
    source = random.Random(int(others[0]) if others and first != "--lines" else 1)
    texts = lines_of(others) if first == "--lines" else random_texts(int(first), source)
    found = differences(chinese_number, source, texts)
    print(*found[:20], f"{len(found)} differences", sep="\n")
    sys.exit(1 if found else 0)


if __name__ == "__main__":
    main()
