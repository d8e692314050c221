"""A reference model of codes in a text, of a text as it is spoken, and of the way back from recognised speech.

It follows the sections 'Codes in a text', 'A text as it is spoken' and 'From recognised speech' of
docs/RULES.md, over the model of phrases in phrases.py. Its author wrote those rules too, after sentences
and before there was code. Positions count characters.
"""

import re
from fractions import Fraction
from typing import Any, List, NamedTuple, Optional, Tuple

import phrases
import text as numbers
from phrases import Phrase, Slot, ascii_of
from text import Found, Options, at, has_figure, is_figure, is_han, is_letter

LINKS = numbers.LINKS
FIGURE = "[0-9０-９]"

# ---- Words -----------------------------------------------------------------------------------

# After one of these words a number is a code.
WORDS_OF_CODES = """
    电话 電話 手机 手機 座机 號碼 号码 热线 熱線 专线 專線 客服 传真 傳真 拨打 撥打 请拨 請撥 致电 致電 分机 分機 转 轉 区号 區號 验证码 驗證碼
    校验码 提取码 取件码 取餐码 邀请码 动态码 识别码 邮政编码 密码 密碼 代码 代碼 邮编 郵編 编号 編號 单号 單號 订单 訂單 卡号 卡號 账号 帳號 帐号 尾号
    尾號 学号 學號 工号 工號 票号 证号 證號 批号 批號 房号 房號 房间号 房間號 机号 機號 序列号 流水号 端口 端口号 后四位 末四位 版本号 车次 車次 QQ QQ号 QQ號 群号
    校驗碼 提取碼 取件碼 取餐碼 邀請碼 動態碼 識別碼 郵政編碼 訂單 賬號 序列號 流水號 端口號 後四位 版本號 群號
""".split()
BEFORE_CODE = re.compile(f"(?:{'|'.join(WORDS_OF_CODES)})(?:[设設]置?[为為]|改?[为為]|是)?[：:；; ]?\\Z")
CALLED = re.compile("[打拨撥叫]\\Z")
EMERGENCIES = frozenset("110 112 114 119 120 122".split())
SERVICES = frozenset("10010 10086 12123 12306 12315 12333 12345 12348 12366 12388 95588".split())

# Measure words. 两 is said before these, and before 万, 亿 and so on of course not.
TWICE = frozenset(
    "个個位名人口户戶家只隻头頭匹条條根支枝张張片块塊页頁本册冊份篇件套台臺辆輛架艘部间間项項种種样樣批对對双雙副次回场場遍趟轮輪天年周週岁歲晚夜小分秒元圆圓角毛米"
    "公千克斤吨噸升里尺寸亩畝平立厘釐毫微海英美欧歐港倍瓶杯碗盒箱包袋桶罐勺颗顆粒滴朵棵株封枚款门門节節组組队隊道成度点點国國球室厅廳课課顿頓餐声聲句步站集把剂劑"
    "例起笔筆股座汤湯茶瓣刻"
)
MEASURE_WORDS = TWICE | frozenset("月日号號楼樓级級期折层層章段班线線路时時百万萬亿億字行手栋棟幢份年")
NO_TWICE = re.compile("年[级級]|人[民称]|小[学學组組]|分之|家庭|部[门門]|本科|成都|国[道籍]|平方根|路")
GAMES = "[领領]先|[战戰]?[胜勝]|[负負]|[击擊][败敗]|逆[转轉]|[获獲][胜勝]|淘汰|落[后後败敗]|[险險大完小][胜勝]|拿下|[战戰]平|横[扫掃]|力克|不[敌敵]|[惜]?[败敗]|[赢贏输輸]"
SCORED = re.compile(GAMES)


def is_counted(text: str, end: int) -> bool:
    """A measure word is after a number; one blank may be between."""
    return at(text, end + 1 if at(text, end) == " " else end) in MEASURE_WORDS


# ---- Codes -----------------------------------------------------------------------------------


class Code(NamedTuple):
    """A code. Of its kinds `version` has points, `bars` has bars that are spoken."""

    start: int
    end: int
    text: str
    kind: str = "digits"
    is_one_character: bool = False


def code_digit(c: str) -> str:
    """The digit of a character of a code, in ASCII, or nothing."""
    if c == "幺":
        return "1"
    if is_figure(c) or c in "零〇一二三四五六七八九":
        return numbers.ascii_figures(c)
    return ""


def digits_of(text: str) -> str:
    return "".join(map(code_digit, text))


def is_of_code(c: str, chinese: bool) -> bool:
    return code_digit(c) != "" and is_figure(c) != chinese


def run_end(text: str, start: int, chinese: bool) -> int:
    while is_of_code(at(text, start), chinese):
        start += 1
    return start


BESIDE = frozenset("_-./\\:=#@^*$&<+%％‰~～")


def touches_before(text: str, start: int) -> bool:
    c = at(text, start - 1)
    return is_letter(c) or is_figure(c) or c in BESIDE


def touches_after(text: str, end: int) -> bool:
    c, then = at(text, end), at(text, end + 1)
    if c in ".-:~～":
        return is_letter(then) or is_figure(then)
    return is_letter(c) or is_figure(c) or c in "_/\\=@^*$&<+%％‰"


MOST_GROUPS = 8


def groups_at(text: str, start: int, chinese: bool) -> List[Tuple[int, str]]:
    """Stretches of digits from a place on, each with the sign after it: a blank, `-`, `.`, 杠 or 点."""
    signs = "-杠 点點" if chinese else "-. "
    found = []
    end = run_end(text, start, chinese)
    while True:
        sign = at(text, end)
        is_joined = sign in signs and is_of_code(at(text, end + 1), chinese)
        found.append((end - start, sign if is_joined else ""))
        if not is_joined or len(found) == MOST_GROUPS:
            return found
        start, end = end + 1, run_end(text, end + 1, chinese)


def end_of_groups(start: int, groups: List[Tuple[int, str]]) -> int:
    return start + sum(length + len(sign) for length, sign in groups)


def is_mobile(run: str) -> bool:
    return re.fullmatch("1[3-9][0-9]{9}", digits_of(run)) is not None


def has_shape_of_number(text: str, start: int, groups: List[Tuple[int, str]]) -> bool:
    """The groups of a mobile number, a landline, 400 or 800, or a card."""
    lengths = [length for length, _ in groups]
    digits = digits_of(text[start : end_of_groups(start, groups)])
    if len({sign for _, sign in groups[:-1]}) > 1 or groups[0][1] not in ("-", " "):
        return False
    if lengths == [3, 4, 4]:
        return is_mobile(digits)
    if len(lengths) == 2:
        return digits[0] == "0" and lengths[0] in (3, 4) and lengths[1] in (7, 8)
    if digits[:3] in ("400", "800"):
        return lengths in ([3, 3, 4], [3, 4, 3])
    return (
        len(lengths) >= 3
        and groups[0][1] == " "
        and all(it == 4 for it in lengths[:-1])
        and lengths[-1] <= 4
    )


def is_after_word(text: str, start: int) -> bool:
    return BEFORE_CODE.search(text[max(0, start - 12) : start]) is not None


def is_date_like(digits: List[str]) -> bool:
    """2026.1.15 may be a date."""
    return (
        len(digits) == 3 and len(digits[0]) == 4 and int(digits[1]) <= 12 and int(digits[2]) <= 31
    )


NO_VERSION = re.compile("[点點十百千万亿分刻半时時]|个|個")


def pointed_at(text: str, start: int, chinese: bool) -> Optional[Code]:
    """An address of four numbers, or a version of three."""
    groups = groups_at(text, start, chinese)
    ten = chinese and at(text, start) == "十"
    points = "点點" if chinese else "."
    if not 3 <= len(groups) <= 4 or any(sign not in points for _, sign in groups[:-1]) or ten:
        return None
    end = end_of_groups(start, groups)
    written = text[start:end]
    parts = [digits_of(it) for it in re.split("[.点點]", written)]
    if any(len(it) > 4 for it in parts) or (len(parts) == 4 and any(int(it) > 255 for it in parts)):
        return None
    if chinese:
        is_word = at(text, end - 1) == "一" and at(text, end) in "定直起样樣些下"
        return (
            None if NO_VERSION.match(text, end) or is_word else Code(start, end, written, "version")
        )
    is_free = not touches_before(text, start) or (
        at(text, start - 1) in "vV" and not is_letter(at(text, start - 2))
    )
    return (
        Code(start, end, written, "version")
        if is_free and not touches_after(text, end) and not is_date_like(parts)
        else None
    )


def grouped_at(text: str, start: int, chinese: bool) -> Optional[Code]:
    """A number in groups, by its shape, or with bars after a word of codes."""
    groups = groups_at(text, start, chinese)
    if len(groups) < 2 or groups[-1][1] or touches_before(text, start):
        return None
    end = end_of_groups(start, groups)
    if touches_after(text, end):
        return None
    if has_shape_of_number(text, start, groups):
        return Code(start, end, text[start:end])
    has_bars = all(sign in "-杠" for _, sign in groups)
    return (
        Code(start, end, text[start:end], "bars")
        if has_bars and is_after_word(text, start)
        else None
    )


ROOM = re.compile("室|房|教室|病房|包[厢廂间間]|[号號]房|会议室|會議室|[国國省县縣]道|航班")
BUILDING = re.compile("(?:[楼樓栋棟幢座]|单元|單元|住在)\\Z")
OF_YEAR = re.compile("[级級届屆款版]|[财財学學]年|[赛賽]季")


def is_in_building(text: str, start: int, end: int) -> bool:
    """The words of a building are before a number, which counts nothing."""
    return (
        BUILDING.search(text[max(0, start - 3) : start]) is not None
        and not is_counted(text, end)
        and at(text, end) not in "多余餘来來"
    )


def is_code_of_figures(text: str, start: int, end: int) -> bool:
    """A stretch of figures, with nothing beside it that goes on, is a code."""
    run = ascii_of(text[start:end])
    if is_mobile(run) or (run in SERVICES and not is_counted(text, end)):
        return True
    if run[0] == "0" and len(run) > 1:
        return len(run) > 2 or at(text, end) not in "月日号號时時分秒点點元"
    if run in EMERGENCIES and not is_counted(text, end):
        return (
            re.search("[打拨撥叫](?:1[0-9]{2}[或和、])?\\Z", text[max(0, start - 5) : start]) is not None
        )
    if 3 <= len(run) <= 4 and (ROOM.match(text, end) or is_in_building(text, start, end)):
        return True
    if len(run) == 3 and re.match("路(?![程上口])", text[end : end + 2]):
        return True
    if re.fullmatch("(?:19|20)[0-9]{2}", run) and (
        OF_YEAR.match(text, end)
        or at(text, start - 1) == "〔"
        or numbers.is_in_title(numbers.Line(text), start)
    ):
        return True
    if (
        re.fullmatch("[056789][05]", run)
        and at(text, end) in "后後"
        and at(text, end + 1) not in "付实實再"
    ):
        return at(text, start - 1) not in "减減共满滿付加"
    if is_counted(text, end) or at(text, start - 1) in "¥￥$":
        return False
    is_round = run.endswith("00000")
    return (len(run) >= 7 and not is_round) or (len(run) >= 3 and is_after_word(text, start))


def is_rising(run: str) -> bool:
    values = digits_of(run)
    return all(a <= b for a, b in zip(values, values[1:]))


AFTER_NAME = re.compile("次|[号號]|航班|[高快]速|[国國]道|出口|[登检]|[检檢]票口|航站[楼樓]")


def is_after_letters(text: str, start: int) -> bool:
    """One to three capital letters are directly before, and no letter, figure or sign before these."""
    i = start
    while i > start - 4 and "A" <= at(text, i - 1) <= "Z":
        i -= 1
    return 1 <= start - i <= 3 and not is_letter(at(text, i - 1)) and not touches_before(text, i)


def is_code_of_digits(text: str, start: int, end: int) -> bool:
    """A stretch of Chinese digits is a code."""
    run = text[start:end]
    if is_letter(at(text, start - 1)):
        return is_after_letters(text, start) and (
            len(run) >= 3
            or AFTER_NAME.match(text, end) is not None
            or (len(run) == 2 and not is_counted(text, end))
        )
    if len(run) < 3:
        return False
    if "幺" in run or run[0] in "零〇" or is_mobile(run) or is_after_word(text, start):
        return True
    if len(run) <= 4 and is_in_building(text, start, end):
        return True
    return len(run) >= 7 and not is_rising(run)


def is_joined_by_comma(text: str, start: int, end: int) -> bool:
    """A comma joins a stretch of figures to other ones, in groups of three: 1,280."""
    count = end - start
    if at(text, start - 1) == "," and is_figure(at(text, start - 2)) and count == 3:
        return True
    return at(text, end) == "," and run_end(text, end + 1, False) - end == 4 and count <= 3


def run_at(text: str, start: int, chinese: bool) -> Optional[Code]:
    end = run_end(text, start, chinese)
    if not chinese:
        is_after_blank = at(text, start - 1) == " " and is_figure(at(text, start - 2))
        if is_joined_by_comma(text, start, end) or (is_after_blank and end - start == 3):
            return None
        if is_after_letters(text, start) and not touches_after(text, end):
            return Code(start, end, text[start:end]) if end - start >= 3 else None
        if touches_before(text, start) or touches_after(text, end):
            return None
        return Code(start, end, text[start:end]) if is_code_of_figures(text, start, end) else None
    if at(text, end) in "点點年月十百千万萬亿億两兩廿" or is_letter(at(text, end)):
        return None
    return Code(start, end, text[start:end]) if is_code_of_digits(text, start, end) else None


TENS_VERSION = re.compile("[一二三四五六七八九]?十[一二三四五六七八九]?(?:[点點][零〇一二三四五六七八九幺]+){2}")


def tens_version_at(text: str, start: int) -> Optional[Code]:
    """A version whose first number is written with 十: 十七点五点一."""
    found = TENS_VERSION.match(text, start)
    before = at(text, start - 1)
    if found is None or is_of_code(before, True) or before in "十百千万萬亿億点點第":
        return None
    end = found.end()
    numbers_after = re.split("[点點]", found.group())[1:]
    is_word = at(text, end - 1) == "一" and at(text, end) in "定直起样樣些下"
    if any(len(it) > 4 for it in numbers_after) or NO_VERSION.match(text, end) or is_word:
        return None
    return Code(start, end, found.group(), "version")


def code_at(text: str, start: int) -> Optional[Code]:
    """The code that begins at a place."""
    before = at(text, start - 1)
    chinese = not is_figure(at(text, start))
    if code_digit(at(text, start)) == "" or is_of_code(before, chinese):
        return None
    if chinese and before in "十百千万萬亿億点點第":
        return None
    return (
        pointed_at(text, start, chinese)
        or grouped_at(text, start, chinese)
        or run_at(text, start, chinese)
    )


# ---- In figures, with codes ------------------------------------------------------------------

ADDRESSED = re.compile(
    "[号號](?:楼|樓|院|线|線|柜|櫃|门|門|口|出口|窗|机|機|桌|床|车|車)|[单單]元|站[台臺]|[检檢]票口|登[机機]口|[诊診]室"
)
BUILT = re.compile("[栋棟幢]")


MEASURED = re.compile("分[钟鐘](?!热度|熱度)|公[里斤]|斤(?!斗)|千克|[厘毫]米|毫[升克]|平方米|摄氏度|攝氏度")


def single_at(text: str, start: int) -> Optional[Code]:
    """One Chinese digit of an address or a measure, or of a key, as in 三号楼, 六栋一单元, 五公里."""
    c, after = at(text, start), at(text, start + 1)
    if (
        c not in "零一二两三四五六七八九十"
        or at(text, start - 1) in numbers.DIGITS
        or at(text, start - 1) in numbers.RANKS
    ):
        return None
    if at(text, start - 1) in "第这這那每几幾" or is_letter(at(text, start - 1)):
        return None
    is_built = BUILT.match(text, start + 1) and (c != "一" or code_digit(at(text, start + 2)) != "")
    is_measured = c not in "零一" and MEASURED.match(text, start + 1) is not None
    is_key = at(text, start - 1) == "按" and not is_han(after) and code_digit(after) == ""
    if ADDRESSED.match(text, start + 1) or is_built or is_key or is_measured:
        return Code(start, start + 1, c, "single", True)
    return None


def code_in_figures(code: Code) -> Optional[str]:
    if has_figure(code.text):
        return None
    if code.kind == "single":
        return "10" if code.text == "十" else numbers.ascii_figures(code.text)
    signs = {"点": ".", "點": ".", "杠": "-", " ": " ", "-": "-"}
    first, ten, rest = code.text.rpartition("十")
    tens = (code_digit(first) if first else "1") if ten else ""
    ones = "0" if ten and code_digit(rest[0]) == "" else ""
    return tens + ones + "".join(signs[c] if c in signs else code_digit(c) for c in rest)


def items_with_codes(string: str) -> Tuple[phrases.Text, List[Any]]:
    """The codes of a text, and its items that are in none."""
    text, found = phrases.items_of(string)
    starts = {it.start: it for it in found}
    items: List[Any] = []
    place = 0
    while place < len(string):
        item = code_at(string, place) or tens_version_at(string, place) or single_at(string, place)
        known = starts.get(place)
        if isinstance(item, Code) and isinstance(known, Phrase) and known.end > item.end:
            item = None
        item = item or known
        if item is not None:
            items.append(item)
        place = place + 1 if item is None else item.end
    return text, items


def text_to_figures(string: str, codes: bool = True, **chosen: Any) -> str:
    """Numerals, phrases and codes in figures."""
    if not codes:
        return phrases.text_to_figures(string, **chosen)
    text, items = items_with_codes(string)
    options = Options(**chosen)
    news = [
        code_in_figures(it) if isinstance(it, Code) else phrases.new_text(text, it, options)
        for it in items
    ]
    return numbers.put_in_chains(text.line, items, news)


def from_speech(string: str) -> str:
    """Recognised speech in figures, with codes."""
    return text_to_figures(string, codes=True)


# ---- As it is spoken: signs as they are meant --------------------------------------------------

# A measure in Latin letters, or a sign of one, and how it is spoken; letters that stay are not named.
MEASURES = dict(
    it.split(":")
    for it in """
    kg:千克 g:克 mg:毫克 μg:微克 µg:微克 t:吨 km:千米 m:米 dm:分米 cm:厘米 mm:毫米 μm:微米 µm:微米 nm:纳米 L:升 l:升 mL:毫升 ml:毫升
    s:秒 ms:毫秒 min:分钟 h:小时 Hz:赫兹 kHz:千赫兹 MHz:兆赫兹 GHz:吉赫兹 V:伏 kV:千伏 mV:毫伏 W:瓦 kW:千瓦 MW:兆瓦 GW:吉瓦
    kWh:千瓦时 mA:毫安 mAh:毫安时 Pa:帕 hPa:百帕 kPa:千帕 MPa:兆帕 kJ:千焦 kcal:千卡 dB:分贝 mmHg:毫米汞柱 Ω:欧姆
    km/h:千米每小时 m/s:米每秒 g/L:克每升 mg/L:毫克每升 mmol/L:毫摩尔每升 μmol/L:微摩尔每升 g/cm³:克每立方厘米
    kg/m³:千克每立方米 μg/m³:微克每立方米 mg/m³:毫克每立方米 mg/kg:毫克每千克 L/min:升每分钟 ml/min:毫升每分钟
    ㎡:平方米 m²:平方米 m³:立方米 km²:平方千米 cm²:平方厘米 cm³:立方厘米 ㎏:千克 ㎎:毫克 ㎞:千米 ㎝:厘米 ㎜:毫米
    ℃:摄氏度 °C:摄氏度 ℉:华氏度 °F:华氏度 °:度
    """.split()
)
# These are spoken as they are written.
LETTERS = "KB kB MB GB TB PB Mbps Gbps px K M G T B".split()
LONGEST_FIRST = sorted([*MEASURES, *LETTERS], key=len, reverse=True)
DEGREES = ("摄氏度", "华氏度")

UNIT = (
    f"[{''.join(sorted(MEASURE_WORDS))}][\u4e00-\u9fff]{{0,2}}(?<![到至])|[A-Za-zμ]{{1,4}}|℃|°C|㎡|‰|半"
)
BAR_AFTER_UNIT = re.compile(f"{FIGURE} ?(?:{UNIT})([-−－])(?={FIGURE})")
BAR_AFTER_CLOCK = re.compile(f"{FIGURE}[:：]{FIGURE}{FIGURE}([-−－])")


def as_meant(string: str) -> str:
    """A colon after no figure and no letter is no colon of a time; a bar after a unit, and before a figure, and one
    after a time is no minus sign. The new characters have as many bytes."""
    chars = list(string)
    for i, c in enumerate(chars):
        if c in ":：" and not is_figure(at(string, i - 1)) and not is_letter(at(string, i - 1)):
            chars[i] = ";" if c == ":" else "；"
    for pattern in (BAR_AFTER_UNIT, BAR_AFTER_CLOCK):
        for it in pattern.finditer(string):
            chars[it.start(1)] = "~" if it[1] == "-" else "～"
    return "".join(chars)


# ---- Numbers as they are spoken --------------------------------------------------------------

CHINESE_DIGITS = "零一二三四五六七八九"


def spelled(number: int) -> str:
    """`Spelling.spelling`, in the lower case of the simple script."""
    if number < 10:
        return CHINESE_DIGITS[number]
    for exponent, unit in ((16, "京"), (8, "亿"), (4, "万"), (3, "千"), (2, "百"), (1, "十")):
        scale = 10**exponent
        if number >= scale:
            high, low = divmod(number, scale)
            zero = "零" if 0 < low < scale // 10 else ""
            said = inner(high) + unit + zero + (inner(low) if low else "")
            return said[1:] if said.startswith("一十") else said
    raise ValueError


def inner(number: int) -> str:
    said = spelled(number)
    return "一" + said if said.startswith("十") else said


def one_by_one(text: str, one: str = "一") -> str:
    return "".join(one if c == "1" else CHINESE_DIGITS[int(c)] for c in digits_of(text))


# From here on figures are digits one by one.
LIMIT = 10**16


def figures_said(figures: str) -> str:
    """Figures, with commas or without, as a number."""
    plain = re.sub("[,，]", "", ascii_of(figures))
    number = int(plain or "0")
    return spelled(number) if number < LIMIT else one_by_one(plain)


STRETCH = re.compile("([0-9０-９,，]*)((?:[.．][0-9０-９,，.．]*)?)")


def stretch_said(text: str, start: int, previous: str) -> Tuple[int, str]:
    """The stretch of figures at a place: where it ends, and what is said for it."""
    found = STRETCH.match(text, start)
    assert found is not None
    said = figures_said(found[1])
    following = said[1:] or text[found.end(1) :].replace(
        " ", "", text.startswith(" ", found.end(1))
    )
    if said[0] == "二" and previous != "第" and following[:1] in [*"千万萬亿億"]:
        said = "两" + said[1:]
    gap = "零" if previous in [*"万萬亿億"] and 2 <= len(found[1]) <= 3 else ""
    decimals = "点" + one_by_one(found[2][1:]) if found[2] else ""
    return found.end(), gap + said + decimals


def as_written(text: str, previous: str = "") -> str:
    """Each stretch of figures as a number; blanks and share signs are left out."""
    said, place = "", 0
    while place < len(text):
        c = text[place]
        if is_figure(c) or c in ",，.．":
            place, part = stretch_said(text, place, previous if place == 0 else text[place - 1])
        else:
            place, part = place + 1, "" if c in " %％‰" else c
        said += part
    return said


def said_number(text: str, is_money: bool = False, before: str = "") -> Optional[str]:
    """An expression in figures, without a sign, after a character."""
    if numbers.quantity(text) is None:
        return None
    if is_money and re.search("[.．]", text):
        text = re.sub("[.．]?[0０]*\\Z", "", text)
    if "‰" in text:
        return "千分之" + as_written(text)
    if re.search("[%％]", text):
        is_all = re.match("0*100 ?[%％]", ascii_of(text)) is not None
        return "百分之百" if is_all else "百分之" + as_written(text)
    return as_written(text, before)


def follows_ordinal(text: str, start: int) -> bool:
    return (
        re.search("(?:第|公元前?|第1[、和或与與]|民[国國]|昭和|平成|令和)\\Z", text[max(0, start - 3) : start])
        is not None
    )


def is_twice(text: str, end: int) -> bool:
    """A measure word before which 2 is 两 is after a number."""
    after = end + 1 if at(text, end) == " " else end
    return at(text, after) in TWICE and not NO_TWICE.match(text, after)


# ---- Measures, signs and links -----------------------------------------------------------------


def measure_at(text: str, end: int) -> Optional[Tuple[int, str]]:
    """The measure after a number, after a blank or none: where it ends, and how it is spoken."""
    start = end + 1 if at(text, end) == " " else end
    if at(text, end) == "#" and (is_han(at(text, end + 1)) or at(text, end + 1) == "、"):
        return end + 1, "号"
    for it in LONGEST_FIRST:
        if not text.startswith(it, start):
            continue
        last = start + len(it)
        after, then = at(text, last), at(text, last + 1)
        if (
            is_letter(after)
            or is_figure(after)
            or after in "²³_"
            or (after in "/.-" and is_letter(then))
        ):
            continue
        if start > end and (len(it) == 1 and is_letter(it)):
            return None
        return last, MEASURES.get(it, it)
    return None


def is_two_alone(text: str) -> bool:
    return text in ("2", "２", "二")


def is_counted_two(text: str, start: int, end: int) -> bool:
    """2 from `start`, before what is at `end`, is 两: a measure word, or a measure with a name."""
    _, unit = measure_at(text, end) or (end, "")
    is_measured = is_han(unit[:1]) and not unit.startswith((*DEGREES, "号"))
    return not follows_ordinal(text, start) and (is_twice(text, end) or is_measured)


SIGNS = {"≥": "大于等于", "≤": "小于等于", "±": "正负", "≈": "约等于"}
# The name of `$` depends on the script.
CURRENCIES = {"$": "$", "＄": "$", "€": "欧元", "£": "英镑"}
LINKED = re.compile(
    f"((?:[{''.join(sorted(TWICE))}月日号號年时時半][\u4e00-\u9fff]{{0,2}})?)([×{LINKS}]|/(?=[\u4e00-\u9fff]))(?=[-−]?{FIGURE}|[\u4e00-\u9fff])"
)
NEXT_DAY = re.compile("[次翌当當][日天]|第二天|[早上中下晚凌深]")


def tail_at(text: str, end: int, is_of_day: bool, is_money: bool) -> Tuple[int, str]:
    """After what is spoken, a unit and a sign: a link to another number is 到, × is 乘, and / before a measure
    word is 每."""
    found = LINKED.match(text, end)
    if found is None or found[2] in "到至":
        return end, ""
    sign, after = found[2], at(text, found.end())
    if sign == "/":
        is_price = (
            found[1] != "" or is_money or text[end - 1] in "元块圆㎡" or is_letter(at(text, end - 1))
        )
        return (
            (found.end(), found[1] + "每")
            if is_price and after in MEASURE_WORDS | {"立", "吨", "亩"}
            else (end, "")
        )
    if sign == "×":
        is_product = re.match(f"{FIGURE}+(?:[.]{FIGURE}+)?(?![0-9.= ^])", text[found.end() :])
        return (found.end(), found[1] + "乘") if is_product else (end, "")
    if is_figure(after) or after in "-−":
        return (found.end(), found[1] + "到") if sign not in "-－" or is_of_day else (end, "")
    is_next = is_of_day and NEXT_DAY.match(text, found.end()) and found[1] == ""
    return (found.end(), "到") if is_next else (end, "")


# ---- Pairs of figures --------------------------------------------------------------------------


class Spoken(NamedTuple):
    """What is said for a part of a text."""

    start: int
    end: int
    said: str


PAIR = re.compile(f"({FIGURE}{{1,4}})([-/:：])({FIGURE}{{1,4}})")
IN_RATIO = re.compile("比例[为為是约約]?\\Z|比[为為]\\Z")
RATIO = re.compile("的比例|稀[释釋]|配[制製]|混合|[竖豎横橫]屏")
IN_SCORES = re.compile("比分[為为是]?[;；]?[0-9:：、，和与 -]*\\Z")
PRESSURE = re.compile("mmHg|毫米汞柱")
SHARED = re.compile("[的以左多]|(?:片|粒|杯|勺|个|个|袋|包)")


def pair_at(text: str, start: int) -> Optional[Spoken]:
    """Two stretches of figures with a sign between, by what is around them."""
    found = PAIR.match(text, start)
    if (
        found is None
        or touches_before(text, start)
        or touches_after(text, found.end())
        and not (found[2] == "/" and PRESSURE.match(text, found.end()))
    ):
        return None
    first, sign, second = int(ascii_of(found[1])), found[2], int(ascii_of(found[3]))
    front, end = text[max(0, start - 20) : start], found.end()
    between = None
    if sign == "/":
        is_half_day = phrases.HALF_DAY.match(text, end) is not None
        if is_half_day and 1 <= first <= 12 and 1 <= second <= 31:
            return Spoken(start, end, spelled(first) + "月" + spelled(second) + "日")
        measure = PRESSURE.match(text, end)
        if measure is not None:
            return Spoken(start, measure.end(), spelled(first) + "比" + spelled(second) + "毫米汞柱")
        is_share = SHARED.match(text, end) or re.search("(?:[有中约約近超过過]|不[到足])\\Z", front)
        if 1 <= first < second <= 10 and is_share and not front.endswith("第"):
            return Spoken(start, end, spelled(second) + "分之" + spelled(first))
        return None
    lengths = (len(found[1]), len(found[3]))
    is_years = re.fullmatch("(?:19|20)[0-9]{2}", ascii_of(found[1])) and lengths[1] in (2, 4)
    if sign == "-" and is_years and re.match("[赛賽]季|[学學财財]年|年度", text[end:]):
        return Spoken(start, end, one_by_one(found[1]) + "到" + one_by_one(found[3]))
    if max(lengths) > 3:
        return None
    is_ratio = front.endswith("以") or IN_RATIO.search(front) or RATIO.match(text, end)
    if SCORED.match(text, end) or IN_SCORES.search(front) or (sign != "-" and is_ratio):
        between = "比"
    elif sign == "-" and front[-1:] in ("图", "圖", "表"):
        between = "杠"
    return (
        None if between is None else Spoken(start, end, spelled(first) + between + spelled(second))
    )


# ---- Phrases as they are spoken --------------------------------------------------------------


def said_year(text: phrases.Text, slot: Slot) -> str:
    """Digit by digit, except the years of an era, and of more than two and less than four figures."""
    head = text.line.text[: slot.start]
    is_era = head.endswith(("民国", "民國")) or numbers.is_after_era(text.line, slot.start)
    return (
        spelled(int(ascii_of(slot.text)))
        if is_era or len(slot.text) not in (2, 4)
        else one_by_one(slot.text)
    )


def said_slot(text: phrases.Text, phrase: Phrase, slot: Slot) -> str:
    """A slot with figures: a year and decimals digit by digit, any other as a number."""
    if not has_figure(slot.text):
        return slot.text
    if not ascii_of(slot.text).isdigit():
        return said_number(slot.text) or slot.text
    if slot.letter in "Yy":
        return said_year(text, slot)
    if slot.letter == "F":
        return one_by_one(slot.text)
    value = int(ascii_of(slot.text))
    is_clock = slot.letter in "mBsZX" or (phrase.kind == "duration" and slot.letter in "MS")
    zero = "零" if is_clock and 0 < value < 10 and len(slot.text) == 2 else ""
    after = slot.end + (text.at(slot.end) == " ")
    is_two = value == 2 and (slot.letter == "N" or (slot.letter == "H" and text.at(after) in "点點"))
    return zero + ("两" if is_two and phrase.kind != "score" else spelled(value))


def said_clock(values: List[int], units: str) -> str:
    """A time with colons: 十五点三十分, and for how long something takes 两小时十五分三十七秒."""
    hour, minute, second = (values + [0])[:3]
    said = ("两" if hour == 2 else spelled(hour)) + units
    if minute or second:
        said += ("零" if minute < 10 else "") + (spelled(minute) if minute else "") + "分"
    if second:
        said += ("零" if second < 10 else "") + spelled(second) + "秒"
    return said


def is_length_of_time(text: phrases.Text, phrase: Phrase) -> bool:
    head = text.line.text[max(0, phrase.start - 4) : phrase.start]
    return (
        text.line.text.startswith("的成绩", phrase.end)
        or re.search("(?:用时|成绩|时长|历时|倒计时)[为是]?\\Z", head) is not None
    )


def may_be_years(text: phrases.Text, phrase: Phrase) -> bool:
    """1000年前 may be a number of years."""
    is_year = (
        phrase.kind == "date"
        and phrase.words == "年"
        and ascii_of(phrase.slots[0].text).endswith("00")
    )
    return is_year and text.at(phrase.end) in "前来來历歷间間"


def is_count_of_years(text: phrases.Text, phrase: Phrase) -> bool:
    """近1000年 is a number of years."""
    is_year = phrase.kind == "date" and phrase.words == "年"
    figures = ascii_of(phrase.slots[0].text)
    return is_year and figures.endswith("00") and text.at(phrase.start - 1) in "达達今有近約约過过經经"


def is_short_length(text: phrases.Text, phrase: Phrase) -> bool:
    """用时12:30 may be hours and minutes, or minutes and seconds."""
    is_clock = phrase.kind == "time" and phrase.words[-1] in ":：" and len(phrase.slots) == 2
    return is_clock and is_length_of_time(text, phrase)


def said_phrase(text: phrases.Text, phrase: Phrase) -> Optional[str]:
    if phrase.value is None or may_be_years(text, phrase):
        return None
    if is_count_of_years(text, phrase) or is_short_length(text, phrase):
        return None
    if phrase.kind == "range":
        return said_range(text, phrase)
    values = [phrases.value_of(it) for it in phrase.slots]
    lead = text.line.text[phrase.start : phrase.slots[0].start].strip(" ")
    if phrase.words in ("--", "//"):
        return (
            one_by_one(phrase.slots[0].text)
            + "年"
            + spelled(values[1])
            + "月"
            + spelled(values[2])
            + "日"
        )
    if phrase.kind == "time" and phrase.words[-1] in ":：":
        is_length = len(values) == 3 and is_length_of_time(text, phrase)
        return lead + said_clock(values, "小时" if is_length else "点")
    pieces, end = [], phrase.start
    for slot in phrase.slots:
        pieces += [
            said_words(phrase, text.line.text[end : slot.start]),
            said_slot(text, phrase, slot),
        ]
        end = slot.end
    return "".join(pieces) + said_words(phrase, text.line.text[end : phrase.end])


def said_words(phrase: Phrase, words: str) -> str:
    """A colon of a score is 比; a link that is a sign is 到; a blank beside a figure is left out."""
    if phrase.kind == "score" and words:
        return "比"
    return re.sub(f"[{LINKS}](?<![到至])", "到", words.strip(" "))


def said_range(text: phrases.Text, phrase: Phrase) -> Optional[str]:
    low, high = phrase.slots
    if phrase.words in "-－–—":
        has_unit = re.search("[%％‰百千万萬亿億兆]", high.text) or is_counted(text.line.text, high.end)
        if not (has_unit or measure_at(text.line.text, high.end)):
            return None
    said = [
        said_number(it.text, before=text.at(low.start - 1)) if has_figure(it.text) else it.text
        for it in (low, high)
    ]
    if said[0] is None or said[1] is None:
        return None
    quantity = numbers.quantity(low.text)
    if re.search("[%％‰]", high.text) and not re.search("[%％‰]", low.text):
        said[0] = "百分之" + said[0]
    elif is_two_alone(low.text) and is_counted_two(text.line.text, low.start, high.end):
        said[0] = "两"
    elif quantity is not None and quantity.numerator >= 100 * quantity.denominator:
        said[0] += phrases.shared_units(text.by_start[low.start], text.by_start[high.start])
    if is_two_alone(high.text) and is_counted_two(text.line.text, low.start, high.end):
        said[1] = "两"
    return f"{said[0]}{phrase.words if phrase.words in '到至' else '到'}{said[1]}"


def said_money(text: phrases.Text, phrase: Phrase) -> Optional[str]:
    """A sum of money: its sign is 元 after it."""
    slot = phrase.slots[0]
    line = text.line.text
    if at(line, phrase.start - 1) in "$＄€£" or is_joined(
        line, phrase.start, phrase.end, phrase.end
    ):
        return None
    said = said_number(slot.text, is_money=True) if has_figure(slot.text) else slot.text
    if said is None:
        return None
    said = "两" if said == "二" and phrase.words != "small" else said
    rest = "".join(one_by_one(c) if is_figure(c) else c for c in line[slot.end : phrase.end])
    return said + ("" if phrase.words != "sign" or at(line, phrase.end) in "元块圆" else "元") + rest


# ---- Expressions as they are spoken ------------------------------------------------------------


def is_joined(text: str, start: int, end: int, number_end: int) -> bool:
    """A number is part of a name, an address or a formula; `end` is that of its measure."""
    before, beyond, after, then = (
        at(text, start - 1),
        at(text, start - 2),
        at(text, end),
        at(text, end + 1),
    )
    if (
        (is_letter(before) and not is_after_letters(text, start))
        or is_figure(before)
        or before in "_-./\\:=#@^*&<+%％‰幺"
    ):
        return True
    if is_letter(before) and (is_letter(at(text, number_end)) or is_figure(at(text, number_end))):
        return True
    if is_grouped(text, start) or is_grouped(text, number_end + 1):
        return True
    written = text[start:number_end]
    is_long = run_end(text, start, False) - start > 2 and "." not in written
    if before == " " and is_letter(beyond) and is_long:
        return True
    if after in ".-:：":
        return is_letter(then) or is_figure(then)
    if "A" <= after <= "Z" and not (is_letter(then) or is_figure(then) or then in "_-/"):
        return len(written) > 2
    return (
        is_letter(after)
        or is_figure(after)
        or after in "_\\=#@^*$&<+幺"
        or (after == "/" and not is_han(then))
    )


def is_grouped(text: str, start: int) -> bool:
    """Exactly three figures after a blank and a figure: 1 280."""
    end = run_end(text, start, False)
    return end - start == 3 and at(text, start - 1) == " " and is_figure(at(text, start - 2))


def ends_in_degrees(text: str, end: int) -> bool:
    """A measure of degrees is after a number, or after the number that it is linked to."""
    measure = measure_at(text, end)
    if measure is None and at(text, end) in LINKS:
        other = re.compile(f"[-−－]*{FIGURE}[0-9０-９,，.．]*").match(text, end + 1)
        measure = measure_at(text, other.end()) if other else None
        return (
            measure[1] in DEGREES if measure else other is not None and at(text, other.end()) == "度"
        )
    return measure[1] in DEGREES if measure else at(text, end) == "度"


def may_be_short_year(text: str, found: Found) -> bool:
    """98年 may be a year, or a number of years."""
    figures = ascii_of(found.text)
    is_pair = figures.isdigit() and len(figures) == 2 and figures[0] in "6789" and figures[1] != "0"
    return is_pair and re.match("年(?![级級期来來])", text[found.end : found.end + 2]) is not None


def is_after_bar(text: str, found: Found) -> bool:
    """A bar after a Han character and before figures that count nothing may be no minus sign: 歼-20."""
    before = at(text, found.start - 1)
    return (
        re.fullmatch(f"-{FIGURE}+", found.text) is not None
        and is_han(before)
        and before not in "为為是約约达達到至于於得值温溫"
        and not is_twice(text, found.end)
        and measure_at(text, found.end) is None
    )


def said_expression(text: str, found: Found) -> Optional[Spoken]:
    start, end = found.start, found.end
    last, unit = measure_at(text, end) or (end, "")
    if is_joined(text, start, last, end) or may_be_short_year(text, found):
        return None
    if is_after_bar(text, found):
        return None
    sign, body = numbers.signed(found.text)
    if sign in ("+", "＋", "正"):
        return None
    currency = CURRENCIES.get(at(text, start - 1), "")
    if currency and len(body) < 2 or "又" in body:
        return None
    said = said_number(
        body,
        is_money=bool(currency) or re.search("[¥￥]", found.text) is not None,
        before=at(text, start - 1),
    )
    if said is None:
        return None
    if is_two_alone(found.text) and not currency and is_counted_two(text, start, end):
        said = "两"
    if re.fullmatch("[1-9１-９]{2}", found.text) and at(text, end) == "折":
        said = one_by_one(found.text)
    if sign:
        said = ("零下" if sign == "零下" or ends_in_degrees(text, end) else "负") + said
    if currency:
        return Spoken(start - 1, end, said + currency)
    return Spoken(start, last, said + ("元" if re.search("[¥￥]", found.text) else "") + unit)


# ---- The whole text --------------------------------------------------------------------------


def said_code(code: Code, one: str) -> Spoken:
    if code.kind == "version":
        parts = re.split("[.]", code.text)
        first = one_by_one(parts[0], one) if len(parts) == 4 else spelled(int(ascii_of(parts[0])))
        return Spoken(
            code.start, code.end, "点".join([first] + [one_by_one(it, one) for it in parts[1:]])
        )
    between = "杠" if code.kind == "bars" else ""
    return Spoken(
        code.start,
        code.end,
        between.join(one_by_one(it, one) for it in re.split("[- ]", code.text)),
    )


def speak(text: phrases.Text, item: Any) -> Optional[Spoken]:
    line = text.line.text
    if at(line, item.start - 1) in CURRENCIES and is_letter(at(line, item.start - 2)):
        return None
    if isinstance(item, Found):
        return said_expression(line, item)
    said = said_money(text, item) if item.kind == "money" else said_phrase(text, item)
    if said is None:
        return None
    if currency := CURRENCIES.get(at(line, item.start - 1), ""):
        return Spoken(item.start - 1, item.end, said + currency)
    measure = measure_at(line, item.end) if item.kind == "range" else None
    last, unit = measure or (item.end, "")
    return Spoken(item.start, last, said + unit)


def spoken_parts(string: str, one: str = "一") -> Tuple[List[Spoken], List[Tuple[int, int]]]:
    """What is spoken otherwise than it is written, and the spans with figures that are left."""
    meant = as_meant(string)
    text, items = phrases.items_of(meant)
    starts = {it.start: it for it in items}
    parts: List[Spoken] = []
    left: List[Tuple[int, int]] = []
    place = 0
    while place < len(meant):
        code, known = code_at(meant, place), starts.get(place)
        spoken = pair_at(meant, place)
        if spoken is None and code and has_figure(code.text):
            spoken = said_code(code, one)
        elif spoken is None and known is not None and has_figure(known.text):
            spoken = speak(text, known)
            if spoken is None:
                left.append((known.start, known.end))
        if spoken is None:
            place = max(place + 1, known.end if known else 0)
            continue
        is_of_day = isinstance(known, Phrase) and known.kind in ("date", "time")
        is_money = isinstance(known, Phrase) and known.kind == "money"
        end, more = tail_at(meant, spoken.end, is_of_day, is_money)
        sign = SIGNS.get(at(meant, spoken.start - 1), "")
        parts.append(Spoken(spoken.start - (1 if sign else 0), end, sign + spoken.said + more))
        place = end
    return parts, left


TRADITIONAL = str.maketrans("点两万亿负摄华吨时钟纳兹欧号杠镑约于贝尔", "點兩萬億負攝華噸時鐘納茲歐號槓鎊約於貝爾")


def text_to_speech(string: str, one: str = "一", is_traditional: bool = False) -> str:
    pieces, end = [], 0
    for it in spoken_parts(string, one)[0]:
        pieces += [
            string[end : it.start],
            it.said.replace("$", "元").translate(TRADITIONAL)
            if is_traditional
            else it.said.replace("$", "美元"),
        ]
        end = it.end
    return "".join(pieces) + string[end:]


def left_in(string: str) -> List[str]:
    """The parts with figures that are left."""
    return [string[a:b] for a, b in spoken_parts(string)[1]]
