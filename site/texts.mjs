// The texts of the page in each of its languages. The page has no other texts.

/** The languages, in the order of the texts below. */
export const LANGUAGES = ['zh-Hans', 'zh-Hant', 'en'];

/** Each text by its key, in each language. Names in braces are replaced by values. */
export const TEXTS = {
  // The page.
  title: ['大写金额与中文数字', '大寫金額與中文數字', 'Chinese amounts and numerals'],
  description: [
    '金额、出票日期和数字转中文大写，大写转回数字，边输入边检查。内容不离开本机。',
    '金額、出票日期和數字轉中文大寫，大寫轉回數字，邊輸入邊檢查。內容只在您的裝置上處理。',
    'Amounts, dates and numbers to Chinese capitals and back, checked as you type. '
      + 'Nothing leaves your device.',
  ],
  rules: [
    '大写金额和出票日期依中国大陆的票据规定，不适用于台湾、香港的支票。',
    '大寫金額和出票日期依中國大陸票據規定，不適用於臺灣、香港的支票。',
    'Amounts and dates follow the rules for bills in mainland China, '
      + 'not those for cheques in Taiwan or Hong Kong.',
  ],
  language: ['语言', '語言', 'Language'],
  loading: ['正在载入……', '正在載入……', 'Loading…'],
  loadFailed: ['载入失败：{message}', '載入失敗：{message}', 'The library did not load: {message}'],

  // The forms.
  writingAmounts: ['金额转大写', '金額轉大寫', 'Amount to capitals'],
  figures: ['金额（元）', '金額（元）', 'Amount in yuan'],
  form: ['写法', '寫法', 'How it is written'],
  currency: ['前面写“人民币”', '前面寫「人民幣」', 'with the prefix 人民币'],
  roundYuan: ['“元”写作“圆”', '「元」寫作「圓」', '圆 instead of 元'],
  uprightClosing: ['“整”写作“正”', '「整」寫作「正」', '正 instead of 整'],
  bracketedSign: ['“负”写作“（负数）”', '「負」寫作「（負數）」', '（负数） instead of 负'],
  readingAmounts: ['大写转金额', '大寫轉金額', 'Capitals to amount'],
  capitals: ['大写金额', '大寫金額', 'Amount in capitals'],
  writingDates: ['出票日期转大写', '出票日期轉大寫', 'Date to capitals'],
  dateFigures: ['出票日期', '出票日期', 'Date, as year-month-day'],
  readingDates: ['大写转出票日期', '大寫轉出票日期', 'Capitals to date'],
  dateCapitals: ['大写日期', '大寫日期', 'Date in capitals'],
  date: ['日期', '日期', 'Date'],
  dateExample: ['贰零贰陆年零壹月壹拾伍日', '貳零貳陸年零壹月壹拾伍日', '贰零贰陆年零壹月壹拾伍日'],
  writingNumerals: ['数字转中文', '數字轉中文', 'Number to numerals'],
  number: ['数字', '數字', 'Number'],
  readingNumerals: ['中文转数字', '中文轉數字', 'Numeral to number'],
  numeral: ['中文数字', '中文數字', 'Numeral'],
  choices: ['整数类型和读写方式', '整數型別和讀寫方式', 'Integer type and way'],
  kind: ['整数类型', '整數型別', 'Integer type'],
  anyKind: ['不限', '不限', 'any'],
  way: ['读写方式', '讀寫方式', 'Way'],
  any: ['自动', '自動', 'any'],
  digits: ['逐位（一二〇）', '逐位（一二〇）', 'plain digits (一二〇)'],
  low: ['下数（亿 = 十万）', '下數（億 = 十萬）', 'low (億 = 10⁵)'],
  tenThousand: ['万进（兆 = 万亿）', '萬進（兆 = 萬億）', 'ten thousand (兆 = 10¹²)'],
  middle: ['中数（兆 = 亿亿）', '中數（兆 = 億億）', 'middle (兆 = 10¹⁶)'],
  high: ['上数（京 = 兆兆）', '上數（京 = 兆兆）', 'high (京 = 10³²)'],
  searching: ['文本中的数值', '文字中的數值', 'Quantities in a text'],
  text: ['文本', '文字', 'Text'],
  textExample: ['市值三点五亿元，占百分之五十', '市值三點五億元，佔百分之五十', '市值三点五亿元，占百分之五十'],
  searchChoices: ['查找和替换', '搜尋和取代', 'Search and replacement'],
  upper: [
    '也找大写（如“叁”）和比“兆”大的单位',
    '也找大寫（如「參」）和比「兆」大的單位',
    'Also capitals, such as 叁, and units above 兆',
  ],
  about: [
    '也替换约数（如“十几”的“十”）',
    '也取代概數（如「十幾」的「十」）',
    'Also replace approximate numbers, such as 十 in 十几',
  ],
  oneCharacter: [
    '也替换单个字（如“一般”的“一”）',
    '也取代單一個字（如「一般」的「一」）',
    'Also replace single characters, such as 一 in 一般',
  ],
  doubtful: [
    '也替换存疑的（如“五一”）',
    '也取代存疑的（如「五一」）',
    'Also replace doubtful ones, such as 五一',
  ],
  expanded: [
    '展开大单位（“3500亿”写作“350000000000”）',
    '展開大單位（「3500億」寫作「350000000000」）',
    'Expand great units: 350000000000 for 3500亿',
  ],
  canonical: [
    '数字不带逗号和前导零',
    '數字不帶逗號和前導零',
    'Figures without commas and leading zeros',
  ],
  compact: [
    '日期、时刻尽量简短（如“2026-01-05”“15:30”）',
    '日期、時刻盡量簡短（如「2026-01-05」「15:30」）',
    'Short dates and times, such as 2026-01-05 and 15:30',
  ],
  codes: [
    '也替换号码（“打幺幺零”写作“打110”）',
    '也取代號碼（「打幺幺零」寫作「打110」）',
    'Also replace codes, such as telephone numbers: 打110 for 打幺幺零',
  ],
  replaced: ['换成阿拉伯数字', '換成阿拉伯數字', 'In figures'],
  spoken: ['读出来', '讀出來', 'As it is spoken'],

  // The rows of a result, and their buttons.
  simplified: ['简体', '簡體', 'Simplified'],
  traditional: ['繁体', '繁體', 'Traditional'],
  simplified_upper: ['简体大写', '簡體大寫', 'Simplified capitals'],
  simplified_lower: ['简体小写', '簡體小寫', 'Simplified'],
  traditional_upper: ['繁体大写', '繁體大寫', 'Traditional capitals'],
  traditional_lower: ['繁体小写', '繁體小寫', 'Traditional'],
  copy: ['复制', '複製', 'Copy'],
  copied: ['已复制', '已複製', 'Copied'],
  select: ['选中这个字', '選取這個字', 'Select it'],

  // Why there is no result, if the library does not say it.
  wrong: [
    '第{place}个字“{character}”不能写在这里。',
    '第{place}個字「{character}」不能寫在這裡。',
    'Character {place}, “{character}”, is not allowed here.',
  ],
  dateOrder: [
    '请按年、月、日的顺序写，如 2026-1-15。',
    '請按年、月、日的順序寫，如 2026-1-15。',
    'Write year, month and day, such as 2026-1-15.',
  ],
  noDay: [
    '{year}年{month}月没有{day}日。',
    '{year}年{month}月沒有{day}日。',
    'Month {month} of {year} has no day {day}.',
  ],
  belowZero: [
    '票据上没有负数金额；“负”或“（负数）”开头的金额用于红字发票。',
    '票據上沒有負數金額；「負」或「（負數）」開頭的金額用於紅字發票（中國大陸）。',
    'Cheques have no negative amounts; the prefixes 负 and （负数） are for red invoices in mainland '
      + 'China.',
  ],
  notWhole: [
    '所选写法只支持整数。',
    '所選寫法只支援整數。',
    'This choice writes only whole numbers.',
  ],
  outOfMemory: ['文本太长，内存不够。', '文字太長，記憶體不足。', 'The text is too long for the memory.'],
  failed: ['程序出错：{message}', '程式出錯：{message}', 'The library failed: {message}'],

  // What was found.
  found: ['找到 {count} 处', '找到 {count} 處', 'Found: {count}'],
  foundLeft: ['不替换 {count} 处', '不取代 {count} 處', 'not replaced: {count}'],
  foundDoubtful: ['存疑 {count} 处', '存疑 {count} 處', 'doubtful: {count}'],
  foundFault: ['读不出 {count} 处', '讀不出 {count} 處', 'refused: {count}'],
  valueAbout: ['约 {value}', '約 {value}', 'about {value}'],
  valueDoubtful: ['{value}？', '{value}？', '{value}?'],
  valueInDoubt: ['{value}？{doubt}', '{value}？{doubt}', '{value}? {doubt}'],
  doubt_word: ['（像词语）', '（像詞語）', '(part of a word)'],
  doubt_digits: ['（像几个数字）', '（像幾個數字）', '(a list of digits)'],
  doubt_term: ['（像术语）', '（像術語）', '(part of a term)'],
  doubt_part: ['（后面连着折、成、半）', '（後面連著折、成、半）', '(折, 成 or 半 follows)'],
  doubt_time: ['（像时刻）', '（像時刻）', '(a time)'],
  doubt_range: ['（范围的一端）', '（範圍的一端）', '(one end of a range)'],
  phrase: ['{kind}：{value}', '{kind}：{value}', '{kind}: {value}'],
  phraseRefused: ['没有这样的{kind}', '沒有這樣的{kind}', 'not a valid {kind}'],
  phrase_date: ['日期', '日期', 'date'],
  phrase_years: ['年份', '年份', 'years'],
  phrase_months: ['月份', '月份', 'months'],
  phrase_days: ['几日', '幾日', 'days'],
  phrase_time: ['时刻', '時刻', 'time'],
  phrase_duration: ['时长', '時長', 'duration'],
  phrase_half: ['带半的数', '帶半的數', 'half'],
  phrase_length: ['度量', '度量', 'measure'],
  phrase_score: ['比分', '比分', 'score'],
  phrase_range: ['范围', '範圍', 'range'],
  phrase_money: ['金额', '金額', 'money'],
  year: ['{value}年', '{value}年', 'year {value}'],
  month: ['{value}月', '{value}月', 'month {value}'],
  day: ['{value}日', '{value}日', 'day {value}'],
  more: ['另有 {count} 个未列出', '另有 {count} 個未列出', '{count} more are not listed'],
  long: [
    '文本较长：只看光标附近的 {count} 字，复制的是替换后的全文。',
    '文字較長：只看游標附近的 {count} 字，複製的是取代後的全文。',
    'Long text: only {count} characters near the caret are searched. Copy converts all of it.',
  ],
};
