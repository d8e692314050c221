// The proved module for WebAssembly as Java; made by bindings/java/core.py.
package chinesenumber;

final class Core7 {
static int f208_1(State m, int l3, long l6, long l7, long l9, long l10, long l11, int l15, int l16, int l17) {
 final byte[] b = m.bytes;
 int exit = 0;
 PART: {
  L8: {
   if (l7 == 0L) { break L8; }
   l15 = (l3 = (int) b[((int) l6) - 58912]) & 255;
   L9: {
    L10: {
     L11: {
      if (l3 > -1) { break L11; }
      l16 = (b[((int) l6) - 58911] & 0xff) & 63;
      L12: {
       if (l3 + Integer.MIN_VALUE < 2147483616) { break L12; }
       l17 = (b[((int) l6) - 58910] & 0xff) & 63;
       if (l3 + Integer.MIN_VALUE > 2147483631) { break L10; }
       l9 = 0L;
       l10 = 0L;
       l11 = 0L;
       if ((((((l3 = l16 << 6) | (l15 = l15 << 12)) | l17) & 65503) + -65) + Integer.MIN_VALUE < -2147483622) { exit = 1; break PART; }
       l3 = (l3 | (l15 & 61440)) | l17;
       break L9;
      }
      l9 = 0L;
      l10 = 0L;
      l11 = 0L;
      if (((((l15 << 6) | l16) & 2015) + -65) + Integer.MIN_VALUE >= -2147483622) { break L8; }
      exit = 1; break PART;
     }
     l9 = 0L;
     l10 = 0L;
     l11 = 0L;
     if (((l15 & 95) + -65) + Integer.MIN_VALUE >= -2147483622) { break L8; }
     exit = 1; break PART;
    }
    l9 = 0L;
    l10 = 0L;
    l11 = 0L;
    if ((((l3 = (l17 << 6) | ((l16 << 12) | ((l15 << 18) & 1835008))) | ((l15 = b[((int) l6) - 58909] & 0xff) & 31)) + -65) + Integer.MIN_VALUE < -2147483622) { exit = 1; break PART; }
    l3 = l3 | (l15 & 63);
   }
   l9 = 0L;
   L13: {
    if (l3 > 24179) { break L13; }
    L14: {
     if (l3 > 20739) { break L14; }
     if (l3 == 19975) { exit = 2; break PART; }
     if (l3 == 20004) { exit = 2; break PART; }
     l10 = 0L;
     l11 = 0L;
     if (l3 != 20159) { break L8; }
     exit = 1; break PART;
    }
    l10 = 0L;
    l11 = 0L;
    L15: {
     switch (l3 + -21313) {
     case 0: case 2: exit = 1; break PART;
     case 1: break L8;
     default: break L15;
     }
    }
    if (l3 == 20740) { exit = 2; break PART; }
    l10 = 0L;
    l11 = 0L;
    if (l3 != 20841) { break L8; }
    exit = 1; break PART;
   }
   L16: {
    if (l3 > 28856) { break L16; }
    if (l3 == 24180) { exit = 2; break PART; }
    if (l3 == 24319) { exit = 2; break PART; }
    l10 = 0L;
    l11 = 0L;
    if (l3 != 26376) { break L8; }
    exit = 1; break PART;
   }
   L17: {
    if (l3 > 33835) { break L17; }
    if (l3 == 28857) { exit = 2; break PART; }
    l10 = 0L;
    l11 = 0L;
    if (l3 != 30334) { break L8; }
    exit = 1; break PART;
   }
   if (l3 == 33836) { exit = 2; break PART; }
   l10 = 0L;
   l11 = 0L;
   if (l3 == 40670) { exit = 1; break PART; }
  }
 }
 m.kept[0] = l3;
 m.kept[1] = l9;
 m.kept[2] = l10;
 m.kept[3] = l11;
 m.kept[4] = l15;
 m.kept[5] = l16;
 m.kept[6] = l17;
 return exit;
}

static int f208_2(State m, long l1, long l2, int l3, long l4, long l5, long l6, long l7, long l8, long l9, long l10, long l11, int l15, int l16, int l17) {
 final byte[] b = m.bytes;
 int exit = 0;
 PART: {
  L19: {
   if (l2 == 0L) { break L19; }
   L20: {
    if ((l3 = (int) b[((int) ((l10 = l1 + l2) + -1L)) - 58912]) >= 0) { break L20; }
    l11 = -2L;
    L21: {
     if ((b[((int) (l10 + -2L)) - 58912] & 0xff) + Integer.MIN_VALUE > -2147483457) { break L21; }
     l11 = ((b[((int) (l10 + -3L)) - 58912] & 0xff) + Integer.MIN_VALUE > -2147483457) ? -3L : -4L;
    }
    l3 = (l15 = (int) b[((int) (l10 = (l1 + l11) + l2)) - 58912]) & 255;
    if (l15 > -1) { break L20; }
    l16 = (b[((int) l10) - 58911] & 0xff) & 63;
    L22: {
     if (l15 + Integer.MIN_VALUE > 2147483615) { break L22; }
     l3 = ((l3 << 6) & 1984) | l16;
     break L20;
    }
    l17 = (b[((int) l10) - 58910] & 0xff) & 63;
    L23: {
     if (l15 + Integer.MIN_VALUE > 2147483631) { break L23; }
     l3 = ((l16 << 6) | ((l3 << 12) & 61440)) | l17;
     break L20;
    }
    l3 = ((l17 << 6) | ((l16 << 12) | ((l3 << 18) & 1835008))) | ((b[((int) l10) - 58909] & 0xff) & 63);
   }
   if (((l3 & -33) + -65) + Integer.MIN_VALUE > -2147483623) { break L19; }
   l9 = 0L;
   l10 = 0L;
   l11 = 0L;
   if (f214(m, l1, l2) == 0) { exit = 1; break PART; }
   L24: {
    if ((l3 = (l5 == 0L) ? 1 : 0) != 0) { break L24; }
    L25: {
     L26: {
      if ((l15 = (int) b[((int) l4) - 58912]) <= -1) { break L26; }
      l10 = 1L;
      break L25;
     }
     L27: {
      if (l15 + Integer.MIN_VALUE >= 2147483616) { break L27; }
      l10 = 2L;
      break L25;
     }
     l10 = (l15 + Integer.MIN_VALUE < 2147483632) ? 3L : 4L;
    }
    if (l5 == l10) { break L24; }
    L28: {
     L29: {
      if ((l15 = (int) b[((int) (l4 + l10)) - 58912]) <= -1) { break L29; }
      l11 = 1L;
      break L28;
     }
     L30: {
      if (l15 + Integer.MIN_VALUE >= 2147483616) { break L30; }
      l11 = 2L;
      break L28;
     }
     l11 = (l15 + Integer.MIN_VALUE < 2147483632) ? 3L : 4L;
    }
    if (l5 != (l11 + l10)) { exit = 2; break PART; }
   }
   Words.put64(b, ((int) l8) - 58856, 0L);
   Words.put64(b, ((int) l8) - 58864, 0L);
   Words.put64(b, ((int) l8) - 58872, 0L);
   Core6.f197(m, l8 + 40L, 92064L, 3L, l6, l7);
   if ((b[((int) l8) - 58872] & 0xff) == 1) { exit = 2; break PART; }
   Words.put64(b, ((int) l8) - 58856, 0L);
   Words.put64(b, ((int) l8) - 58864, 0L);
   Words.put64(b, ((int) l8) - 58872, 0L);
   Core6.f197(m, l8 + 40L, 92067L, 3L, l6, l7);
   if ((b[((int) l8) - 58872] & 0xff) == 1) { exit = 2; break PART; }
   Words.put64(b, ((int) l8) - 58856, 0L);
   Words.put64(b, ((int) l8) - 58864, 0L);
   Words.put64(b, ((int) l8) - 58872, 0L);
   Core6.f197(m, l8 + 40L, 92070L, 3L, l6, l7);
   if ((b[((int) l8) - 58872] & 0xff) == 1) { exit = 2; break PART; }
   Words.put64(b, ((int) l8) - 58856, 0L);
   Words.put64(b, ((int) l8) - 58864, 0L);
   Words.put64(b, ((int) l8) - 58872, 0L);
   Core6.f197(m, l8 + 40L, 92073L, 6L, l6, l7);
   if ((b[((int) l8) - 58872] & 0xff) == 1) { exit = 2; break PART; }
   Words.put64(b, ((int) l8) - 58856, 0L);
   Words.put64(b, ((int) l8) - 58864, 0L);
   Words.put64(b, ((int) l8) - 58872, 0L);
   Core6.f197(m, l8 + 40L, 92079L, 6L, l6, l7);
   if ((b[((int) l8) - 58872] & 0xff) == 1) { exit = 2; break PART; }
   Words.put64(b, ((int) l8) - 58856, 0L);
   Words.put64(b, ((int) l8) - 58864, 0L);
   Words.put64(b, ((int) l8) - 58872, 0L);
   Core6.f197(m, l8 + 40L, 92085L, 6L, l6, l7);
   if ((b[((int) l8) - 58872] & 0xff) == 1) { exit = 2; break PART; }
   Words.put64(b, ((int) l8) - 58856, 0L);
   Words.put64(b, ((int) l8) - 58864, 0L);
   Words.put64(b, ((int) l8) - 58872, 0L);
   Core6.f197(m, l8 + 40L, 92091L, 6L, l6, l7);
   if ((b[((int) l8) - 58872] & 0xff) == 1) { exit = 2; break PART; }
   Words.put64(b, ((int) l8) - 58856, 0L);
   Words.put64(b, ((int) l8) - 58864, 0L);
   Words.put64(b, ((int) l8) - 58872, 0L);
   Core6.f197(m, l8 + 40L, 92097L, 6L, l6, l7);
   if ((b[((int) l8) - 58872] & 0xff) == 1) { exit = 2; break PART; }
   Words.put64(b, ((int) l8) - 58856, 0L);
   Words.put64(b, ((int) l8) - 58864, 0L);
   Words.put64(b, ((int) l8) - 58872, 0L);
   Core6.f197(m, l8 + 40L, 92103L, 6L, l6, l7);
   if ((b[((int) l8) - 58872] & 0xff) == 1) { exit = 2; break PART; }
   Words.put64(b, ((int) l8) - 58856, 0L);
   Words.put64(b, ((int) l8) - 58864, 0L);
   Words.put64(b, ((int) l8) - 58872, 0L);
   Core6.f197(m, l8 + 40L, 92109L, 6L, l6, l7);
   if ((b[((int) l8) - 58872] & 0xff) == 1) { exit = 2; break PART; }
   Words.put64(b, ((int) l8) - 58856, 0L);
   Words.put64(b, ((int) l8) - 58864, 0L);
   Words.put64(b, ((int) l8) - 58872, 0L);
   Core6.f197(m, l8 + 40L, 92115L, 6L, l6, l7);
   if ((b[((int) l8) - 58872] & 0xff) == 1) { exit = 2; break PART; }
   Words.put64(b, ((int) l8) - 58856, 0L);
   Words.put64(b, ((int) l8) - 58864, 0L);
   Words.put64(b, ((int) l8) - 58872, 0L);
   Core6.f197(m, l8 + 40L, 92121L, 9L, l6, l7);
   if ((b[((int) l8) - 58872] & 0xff) == 1) { exit = 2; break PART; }
   Words.put64(b, ((int) l8) - 58856, 0L);
   Words.put64(b, ((int) l8) - 58864, 0L);
   Words.put64(b, ((int) l8) - 58872, 0L);
   Core6.f197(m, l8 + 40L, 92130L, 9L, l6, l7);
   if ((b[((int) l8) - 58872] & 0xff) == 1) { exit = 2; break PART; }
   Words.put64(b, ((int) l8) - 58856, 0L);
   Words.put64(b, ((int) l8) - 58864, 0L);
   Words.put64(b, ((int) l8) - 58872, 0L);
   Core6.f197(m, l8 + 40L, 92139L, 9L, l6, l7);
   if ((b[((int) l8) - 58872] & 0xff) == 1) { exit = 2; break PART; }
   l9 = 0L;
   Words.put64(b, ((int) l8) - 58856, 0L);
   Words.put64(b, ((int) l8) - 58864, 0L);
   Words.put64(b, ((int) l8) - 58872, 0L);
   Core6.f197(m, l8 + 40L, 92148L, 9L, l6, l7);
   l15 = b[((int) l8) - 58872] & 0xff;
   if (l3 != 0) { exit = 3; break PART; }
   if ((l15 & 255) == 1) { exit = 3; break PART; }
   L31: {
    L32: {
     if ((l3 = (int) b[((int) l4) - 58912]) <= -1) { break L32; }
     l2 = 1L;
     break L31;
    }
    L33: {
     if (l3 + Integer.MIN_VALUE >= 2147483616) { break L33; }
     l2 = 2L;
     break L31;
    }
    l2 = (l3 + Integer.MIN_VALUE < 2147483632) ? 3L : 4L;
   }
   l9 = 0L;
   l10 = 0L;
   l11 = 0L;
   if (l5 == l2) { exit = 1; break PART; }
   l9 = 0L;
   l10 = 0L;
   l11 = 0L;
   if (f215(m, l6, l7) == 0) { exit = 2; break PART; }
   exit = 1; break PART;
  }
 }
 m.kept[0] = l2;
 m.kept[1] = l3;
 m.kept[2] = l9;
 m.kept[3] = l10;
 m.kept[4] = l11;
 m.kept[5] = l15;
 m.kept[6] = l16;
 m.kept[7] = l17;
 return exit;
}

static int f208_3(State m, long l1, long l2, int l3, long l4, long l5, long l6, long l7, long l9, long l10, long l11, int l15) {
 final byte[] b = m.bytes;
 int exit = 0;
 PART: {
  L49: {
   L50: {
    if (l5 == l10) { break L50; }
    L51: {
     L52: {
      if ((l15 = (int) b[((int) (l9 = l4 + l10)) - 58912]) <= -1) { break L52; }
      l11 = 1L;
      break L51;
     }
     L53: {
      if (l15 + Integer.MIN_VALUE >= 2147483616) { break L53; }
      l11 = 2L;
      break L51;
     }
     l11 = (l15 + Integer.MIN_VALUE < 2147483632) ? 3L : 4L;
    }
    if (l5 == (l10 = l11 + l10)) { break L50; }
    L54: {
     L55: {
      if ((l15 = (int) b[((int) (l9 = l9 + l11)) - 58912]) <= -1) { break L55; }
      l11 = 1L;
      break L54;
     }
     L56: {
      if (l15 + Integer.MIN_VALUE >= 2147483616) { break L56; }
      l11 = 2L;
      break L54;
     }
     l11 = (l15 + Integer.MIN_VALUE < 2147483632) ? 3L : 4L;
    }
    if (l5 == (l10 = l11 + l10)) { break L50; }
    L57: {
     L58: {
      if ((l15 = (int) b[((int) (l9 + l11)) - 58912]) <= -1) { break L58; }
      l11 = 1L;
      break L57;
     }
     L59: {
      if (l15 + Integer.MIN_VALUE >= 2147483616) { break L59; }
      l11 = 2L;
      break L57;
     }
     l11 = (l15 + Integer.MIN_VALUE < 2147483632) ? 3L : 4L;
    }
    if (l5 != (l11 + l10)) { break L49; }
   }
   if (f217(m, l1, l2, l6, l7) != 0) { exit = 1; break PART; }
   l3 = b[((int) l4) - 58912] & 0xff;
  }
 }
 m.kept[0] = l3;
 m.kept[1] = l9;
 m.kept[2] = l10;
 m.kept[3] = l11;
 m.kept[4] = l15;
 return exit;
}

static int f208_4(State m, int l3, long l4, long l5, long l8, long l10, int l15, int l16, int l17, int l18) {
 final byte[] b = m.bytes;
 int exit = 0;
 PART: {
  L79: while (true) {
   if (l5 == 0L) { exit = 1; break PART; }
   l15 = (l3 = (int) b[((int) l4) - 58912]) & 255;
   l10 = 1L;
   L80: {
    L81: {
     L82: {
      L83: {
       if (l3 > -1) { break L83; }
       l16 = (b[((int) l4) - 58911] & 0xff) & 63;
       if (l3 + Integer.MIN_VALUE > 2147483615) { break L82; }
       l15 = ((l15 << 6) & 1984) | l16;
       l10 = 2L;
      }
      l5 = l5 - l10;
      l4 = l4 + l10;
      break L81;
     }
     l18 = (b[((int) l4) - 58910] & 0xff) & 63;
     L84: {
      L85: {
       if (l3 + Integer.MIN_VALUE > 2147483631) { break L85; }
       l15 = ((l16 << 6) | ((l15 << 12) & 61440)) | l18;
       l10 = 3L;
       break L84;
      }
      l15 = ((l18 << 6) | ((l16 << 12) | ((l15 << 18) & 1835008))) | ((b[((int) l4) - 58909] & 0xff) & 63);
      l10 = 4L;
     }
     l5 = l5 - l10;
     l4 = l4 + l10;
     l3 = 1;
     if (l15 == 24186) { break L80; }
    }
    l10 = -44L;
    L86: {
     L87: while (true) {
      if ((l16 = Words.get32(b, ((int) (l10 + 87508L)) - 58912)) == l15) { break L86; }
      l3 = (l10 != 0L) ? 1 : 0;
      l10 = l10 + 4L;
      if (l3 != 0) { continue L87; }
      break L87;
     }
    }
    L88: {
     L89: {
      if (l16 != l15) { break L89; }
      Core2.f63(m, l8 + 8L, l15);
      l3 = b[((int) l8) - 58903] & 0xff;
      l15 = b[((int) l8) - 58904] & 0xff;
      break L88;
     }
     Core1.f24(m, l8 + 16L, l15);
     l3 = b[((int) l8) - 58895] & 0xff;
     l15 = b[((int) l8) - 58896] & 0xff;
    }
    l3 = ((l15 & 255) == 1) ? l3 : 0;
   }
   l15 = l17 & 255;
   l17 = l3;
   if ((l3 & 255) + Integer.MIN_VALUE >= l15 + Integer.MIN_VALUE) { continue L79; }
   exit = 2; break PART;
  }
 }
 m.kept[0] = l3;
 m.kept[1] = l4;
 m.kept[2] = l5;
 m.kept[3] = l10;
 m.kept[4] = l15;
 m.kept[5] = l16;
 m.kept[6] = l17;
 m.kept[7] = l18;
 return exit;
}

static int f208_5(State m, long l1, long l2, int l3, long l4, long l5, long l9, long l10, long l11, long l12, long l13, int l15, int l16, int l17, int l18, int l19) {
 final byte[] b = m.bytes;
 int exit = 0;
 PART: {
  L91: {
   if ((l18 = (l2 == 0L) ? 1 : 0) != 0) { break L91; }
   L92: {
    L93: {
     if ((l3 = (int) b[((int) ((l10 = l1 + l2) + -1L)) - 58912]) > -1) { break L93; }
     l11 = -2L;
     L94: {
      if ((l16 = b[((int) (l10 + -2L)) - 58912] & 0xff) + Integer.MIN_VALUE > -2147483457) { break L94; }
      l11 = ((b[((int) (l10 + -3L)) - 58912] & 0xff) + Integer.MIN_VALUE > -2147483457) ? -3L : -4L;
     }
     l3 = (l15 = (int) b[((int) (l11 = (l1 + l11) + l2)) - 58912]) & 255;
     L95: {
      if (l15 > -1) { break L95; }
      l17 = (b[((int) l11) - 58911] & 0xff) & 63;
      L96: {
       if (l15 + Integer.MIN_VALUE > 2147483615) { break L96; }
       l3 = ((l3 << 6) & 1984) | l17;
       break L95;
      }
      l19 = (b[((int) l11) - 58910] & 0xff) & 63;
      L97: {
       if (l15 + Integer.MIN_VALUE > 2147483631) { break L97; }
       l3 = ((l17 << 6) | ((l3 << 12) & 61440)) | l19;
       break L95;
      }
      l3 = ((l19 << 6) | ((l17 << 12) | ((l3 << 18) & 1835008))) | ((b[((int) l11) - 58909] & 0xff) & 63);
     }
     if (l3 != 44) { break L91; }
     l11 = -2L;
     L98: {
      if (l16 + Integer.MIN_VALUE > -2147483457) { break L98; }
      l11 = ((b[((int) (l10 + -3L)) - 58912] & 0xff) + Integer.MIN_VALUE > -2147483457) ? -3L : -4L;
     }
     l10 = l11 + l2;
     break L92;
    }
    if (l3 != 44) { break L91; }
    l10 = l2 + -1L;
   }
   if (l10 == 0L) { break L91; }
   L99: {
    if ((l3 = (int) b[((int) ((l11 = l1 + l10) + -1L)) - 58912]) >= 0) { break L99; }
    l9 = -2L;
    L100: {
     if ((b[((int) (l11 + -2L)) - 58912] & 0xff) + Integer.MIN_VALUE > -2147483457) { break L100; }
     l9 = ((b[((int) (l11 + -3L)) - 58912] & 0xff) + Integer.MIN_VALUE > -2147483457) ? -3L : -4L;
    }
    l3 = (l15 = (int) b[((int) (l10 = (l1 + l9) + l10)) - 58912]) & 255;
    if (l15 > -1) { break L99; }
    l16 = (b[((int) l10) - 58911] & 0xff) & 63;
    L101: {
     if (l15 + Integer.MIN_VALUE > 2147483615) { break L101; }
     l3 = ((l3 << 6) & 1984) | l16;
     break L99;
    }
    l17 = (b[((int) l10) - 58910] & 0xff) & 63;
    L102: {
     if (l15 + Integer.MIN_VALUE > 2147483631) { break L102; }
     l3 = ((l16 << 6) | ((l3 << 12) & 61440)) | l17;
     break L99;
    }
    l3 = ((l17 << 6) | ((l16 << 12) | ((l3 << 18) & 1835008))) | ((b[((int) l10) - 58909] & 0xff) & 63);
   }
   if (l5 == 0L) { break L91; }
   if (((l3 + -58) + Integer.MIN_VALUE < 2147483638) & ((l3 + -65306) + Integer.MIN_VALUE < 2147483638)) { break L91; }
   L103: {
    L104: {
     if ((l3 = (int) b[((int) l4) - 58912]) <= -1) { break L104; }
     l10 = 1L;
     break L103;
    }
    L105: {
     if (l3 + Integer.MIN_VALUE >= 2147483616) { break L105; }
     l10 = 2L;
     break L103;
    }
    l10 = (l3 + Integer.MIN_VALUE < 2147483632) ? 3L : 4L;
   }
   if (l5 == l10) { break L91; }
   L106: {
    L107: {
     if ((l3 = (int) b[((int) (l9 = l4 + l10)) - 58912]) <= -1) { break L107; }
     l11 = 1L;
     break L106;
    }
    L108: {
     if (l3 + Integer.MIN_VALUE >= 2147483616) { break L108; }
     l11 = 2L;
     break L106;
    }
    l11 = (l3 + Integer.MIN_VALUE < 2147483632) ? 3L : 4L;
   }
   if (l5 == (l12 = l11 + l10)) { break L91; }
   L109: {
    L110: {
     if ((l3 = (int) b[((int) (l9 + l11)) - 58912]) <= -1) { break L110; }
     l13 = 1L;
     break L109;
    }
    L111: {
     if (l3 + Integer.MIN_VALUE >= 2147483616) { break L111; }
     l13 = 2L;
     break L109;
    }
    l13 = (l3 + Integer.MIN_VALUE < 2147483632) ? 3L : 4L;
   }
   l9 = 0L;
   l10 = 0L;
   l11 = 0L;
   if (l5 == (l13 + l12)) { exit = 1; break PART; }
  }
 }
 m.kept[0] = l3;
 m.kept[1] = l9;
 m.kept[2] = l10;
 m.kept[3] = l11;
 m.kept[4] = l12;
 m.kept[5] = l13;
 m.kept[6] = l15;
 m.kept[7] = l16;
 m.kept[8] = l17;
 m.kept[9] = l18;
 m.kept[10] = l19;
 return exit;
}

static int f208_6(State m, long l1, long l2, int l3, long l4, long l5, long l6, long l7, long l9, long l10, long l11, long l12, long l13, long l14, int l15, int l16, int l17, int l18, int l19, int l20, int l21, int l22) {
 final byte[] b = m.bytes;
 int exit = 0;
 PART: {
  L116: {
   L117: {
    L118: {
     L119: {
      L120: {
       L121: {
        L122: {
         if ((l19 = (l7 == 0L) ? 1 : 0) != 0) { break L122; }
         L123: {
          L124: {
           if ((l3 = (int) b[((int) l6) - 58912]) > -1) { break L124; }
           l15 = l3 & 255;
           l16 = (b[((int) l6) - 58911] & 0xff) & 63;
           L125: {
            if (l3 + Integer.MIN_VALUE < 2147483616) { break L125; }
            l17 = (b[((int) l6) - 58910] & 0xff) & 63;
            L126: {
             L127: {
              if (l3 + Integer.MIN_VALUE > 2147483631) { break L127; }
              l15 = ((l16 << 6) | ((l15 << 12) & 61440)) | l17;
              break L126;
             }
             l15 = ((l17 << 6) | ((l16 << 12) | ((l15 << 18) & 1835008))) | ((b[((int) l6) - 58909] & 0xff) & 63);
            }
            if (l15 != 44) { break L122; }
            l11 = (l3 + Integer.MIN_VALUE < 2147483632) ? 3L : 4L;
            break L123;
           }
           if ((((l15 << 6) & 1984) | l16) != 44) { break L122; }
           l11 = 2L;
           break L123;
          }
          if (l3 != 44) { break L122; }
          l11 = 1L;
         }
         l10 = l14 = l6 + l11;
         l12 = l13 = l7 - l11;
         L128: {
          L129: while (true) {
           if ((l9 = l12) == 0L) { break L128; }
           l3 = (l15 = (int) b[((int) l10) - 58912]) & 255;
           l11 = 1L;
           L130: {
            if (l15 > -1) { break L130; }
            l16 = (b[((int) l10) - 58911] & 0xff) & 63;
            L131: {
             if (l15 + Integer.MIN_VALUE > 2147483615) { break L131; }
             l3 = ((l3 << 6) & 1984) | l16;
             l11 = 2L;
             break L130;
            }
            l17 = (b[((int) l10) - 58910] & 0xff) & 63;
            L132: {
             if (l15 + Integer.MIN_VALUE > 2147483631) { break L132; }
             l3 = ((l16 << 6) | ((l3 << 12) & 61440)) | l17;
             l11 = 3L;
             break L130;
            }
            l3 = ((l17 << 6) | ((l16 << 12) | ((l3 << 18) & 1835008))) | ((b[((int) l10) - 58909] & 0xff) & 63);
            l11 = 4L;
           }
           l12 = l9 - l11;
           l10 = l10 + l11;
           if ((l3 + -48) + Integer.MIN_VALUE < -2147483638) { continue L129; }
           if ((l3 + -65296) + Integer.MIN_VALUE < -2147483638) { continue L129; }
           break L129;
          }
         }
         if (l13 == l9) { break L122; }
         L133: {
          L134: {
           if ((l3 = (int) b[((int) l14) - 58912]) <= -1) { break L134; }
           l10 = 1L;
           break L133;
          }
          L135: {
           if (l3 + Integer.MIN_VALUE >= 2147483616) { break L135; }
           l10 = 2L;
           break L133;
          }
          l10 = (l3 + Integer.MIN_VALUE < 2147483632) ? 3L : 4L;
         }
         if (l13 == (l11 = l10 + l9)) { break L122; }
         L136: {
          L137: {
           if ((l3 = (int) b[((int) (l9 = l14 + l10)) - 58912]) <= -1) { break L137; }
           l10 = 1L;
           break L136;
          }
          L138: {
           if (l3 + Integer.MIN_VALUE >= 2147483616) { break L138; }
           l10 = 2L;
           break L136;
          }
          l10 = (l3 + Integer.MIN_VALUE < 2147483632) ? 3L : 4L;
         }
         if (l13 == (l11 = l10 + l11)) { break L122; }
         L139: {
          L140: {
           if ((l3 = (int) b[((int) (l9 + l10)) - 58912]) <= -1) { break L140; }
           l10 = 1L;
           break L139;
          }
          L141: {
           if (l3 + Integer.MIN_VALUE >= 2147483616) { break L141; }
           l10 = 2L;
           break L139;
          }
          l10 = (l3 + Integer.MIN_VALUE < 2147483632) ? 3L : 4L;
         }
         if (l13 != (l10 + l11)) { break L122; }
         if (l5 == 0L) { exit = 1; break PART; }
         L142: {
          L143: {
           if ((l3 = (int) b[((int) l4) - 58912]) <= -1) { break L143; }
           l12 = 1L;
           break L142;
          }
          L144: {
           if (l3 + Integer.MIN_VALUE >= 2147483616) { break L144; }
           l12 = 2L;
           break L142;
          }
          l12 = (l3 + Integer.MIN_VALUE < 2147483632) ? 3L : 4L;
         }
         l9 = 0L;
         l10 = 0L;
         l11 = 0L;
         if (l5 == l12) { exit = 2; break PART; }
         L145: {
          L146: {
           if ((l15 = (int) b[((int) (l14 = l4 + l12)) - 58912]) <= -1) { break L146; }
           l13 = 1L;
           break L145;
          }
          L147: {
           if (l15 + Integer.MIN_VALUE >= 2147483616) { break L147; }
           l13 = 2L;
           break L145;
          }
          l13 = (l15 + Integer.MIN_VALUE < 2147483632) ? 3L : 4L;
         }
         l9 = 0L;
         l10 = 0L;
         l11 = 0L;
         if (l5 == (l12 = l13 + l12)) { exit = 2; break PART; }
         L148: {
          L149: {
           if ((l15 = (int) b[((int) (l14 + l13)) - 58912]) <= -1) { break L149; }
           l13 = 1L;
           break L148;
          }
          L150: {
           if (l15 + Integer.MIN_VALUE >= 2147483616) { break L150; }
           l13 = 2L;
           break L148;
          }
          l13 = (l15 + Integer.MIN_VALUE < 2147483632) ? 3L : 4L;
         }
         l9 = 0L;
         l10 = 0L;
         l11 = 0L;
         if (l5 != (l13 + l12)) { break L121; }
         exit = 2; break PART;
        }
        if (l5 == 0L) { break L120; }
        l3 = b[((int) l4) - 58912] & 0xff;
       }
       L151: {
        L152: {
         if ((l15 = (int) (byte) l3) <= -1) { break L152; }
         l10 = 1L;
         break L151;
        }
        L153: {
         if ((l16 = l3 & 255) + Integer.MIN_VALUE >= -2147483424) { break L153; }
         l10 = 2L;
         break L151;
        }
        l10 = (l16 + Integer.MIN_VALUE < -2147483408) ? 3L : 4L;
       }
       L154: {
        if (l5 == l10) { break L154; }
        L155: {
         L156: {
          if ((l16 = (int) b[((int) (l9 = l4 + l10)) - 58912]) <= -1) { break L156; }
          l11 = 1L;
          break L155;
         }
         L157: {
          if (l16 + Integer.MIN_VALUE >= 2147483616) { break L157; }
          l11 = 2L;
          break L155;
         }
         l11 = (l16 + Integer.MIN_VALUE < 2147483632) ? 3L : 4L;
        }
        if (l5 == (l10 = l11 + l10)) { break L154; }
        L158: {
         L159: {
          if ((l16 = (int) b[((int) (l9 + l11)) - 58912]) <= -1) { break L159; }
          l11 = 1L;
          break L158;
         }
         L160: {
          if (l16 + Integer.MIN_VALUE >= 2147483616) { break L160; }
          l11 = 2L;
          break L158;
         }
         l11 = (l16 + Integer.MIN_VALUE < 2147483632) ? 3L : 4L;
        }
        if (l18 != 0) { break L154; }
        if (l5 != (l11 + l10)) { break L154; }
        L161: {
         L162: {
          if ((l16 = (int) b[((int) ((l10 = l1 + l2) + -1L)) - 58912]) > -1) { break L162; }
          l11 = -2L;
          L163: {
           if ((l20 = b[((int) (l10 + -2L)) - 58912] & 0xff) + Integer.MIN_VALUE > -2147483457) { break L163; }
           l11 = ((b[((int) (l10 + -3L)) - 58912] & 0xff) + Integer.MIN_VALUE > -2147483457) ? -3L : -4L;
          }
          l16 = (l17 = (int) b[((int) (l11 = (l1 + l11) + l2)) - 58912]) & 255;
          L164: {
           if (l17 > -1) { break L164; }
           l21 = (b[((int) l11) - 58911] & 0xff) & 63;
           L165: {
            if (l17 + Integer.MIN_VALUE > 2147483615) { break L165; }
            l16 = ((l16 << 6) & 1984) | l21;
            break L164;
           }
           l22 = (b[((int) l11) - 58910] & 0xff) & 63;
           L166: {
            if (l17 + Integer.MIN_VALUE > 2147483631) { break L166; }
            l16 = ((l21 << 6) | ((l16 << 12) & 61440)) | l22;
            break L164;
           }
           l16 = ((l22 << 6) | ((l21 << 12) | ((l16 << 18) & 1835008))) | ((b[((int) l11) - 58909] & 0xff) & 63);
          }
          if (l16 != 32) { break L154; }
          l11 = -2L;
          L167: {
           if (l20 + Integer.MIN_VALUE > -2147483457) { break L167; }
           l11 = ((b[((int) (l10 + -3L)) - 58912] & 0xff) + Integer.MIN_VALUE > -2147483457) ? -3L : -4L;
          }
          l10 = l11 + l2;
          break L161;
         }
         if (l16 != 32) { break L154; }
         l10 = l2 + -1L;
        }
        if (l10 == 0L) { break L154; }
        L168: {
         if ((l16 = (int) b[((int) ((l11 = l1 + l10) + -1L)) - 58912]) >= 0) { break L168; }
         l9 = -2L;
         L169: {
          if ((b[((int) (l11 + -2L)) - 58912] & 0xff) + Integer.MIN_VALUE > -2147483457) { break L169; }
          l9 = ((b[((int) (l11 + -3L)) - 58912] & 0xff) + Integer.MIN_VALUE > -2147483457) ? -3L : -4L;
         }
         l16 = (l17 = (int) b[((int) (l10 = (l1 + l9) + l10)) - 58912]) & 255;
         if (l17 > -1) { break L168; }
         l20 = (b[((int) l10) - 58911] & 0xff) & 63;
         L170: {
          if (l17 + Integer.MIN_VALUE > 2147483615) { break L170; }
          l16 = ((l16 << 6) & 1984) | l20;
          break L168;
         }
         l21 = (b[((int) l10) - 58910] & 0xff) & 63;
         L171: {
          if (l17 + Integer.MIN_VALUE > 2147483631) { break L171; }
          l16 = ((l20 << 6) | ((l16 << 12) & 61440)) | l21;
          break L168;
         }
         l16 = ((l21 << 6) | ((l20 << 12) | ((l16 << 18) & 1835008))) | ((b[((int) l10) - 58909] & 0xff) & 63);
        }
        l9 = 0L;
        if ((l16 + -48) + Integer.MIN_VALUE < -2147483638) { exit = 3; break PART; }
        l10 = 0L;
        l11 = 0L;
        if ((l16 + -65296) + Integer.MIN_VALUE < -2147483638) { exit = 2; break PART; }
       }
       if (f214(m, l1, l2) != 0) { break L118; }
       l3 = 0;
       break L119;
      }
      l9 = 0L;
      l10 = 0L;
      l11 = 0L;
      if (f214(m, l1, l2) != 0) { exit = 2; break PART; }
      l3 = 1;
     }
     l9 = 0L;
     l10 = 0L;
     l11 = 0L;
     if (Core6.f195(m, l1, l2) != 0) { exit = 2; break PART; }
     if (f216(m, l4, l5) != 0) { exit = 4; break PART; }
     if ((l3 | f215(m, l6, l7)) != 0) { exit = 5; break PART; }
     if ((l15 = (int) b[((int) l4) - 58912]) <= -1) { break L117; }
     l10 = 1L;
     break L116;
    }
    L172: {
     L173: {
      if (l15 <= -1) { break L173; }
      l2 = 1L;
      break L172;
     }
     L174: {
      if ((l3 = l3 & 255) + Integer.MIN_VALUE >= -2147483424) { break L174; }
      l2 = 2L;
      break L172;
     }
     l2 = (l3 + Integer.MIN_VALUE < -2147483408) ? 3L : 4L;
    }
    l9 = 0L;
    l10 = 0L;
    l11 = 0L;
    if (l5 == l2) { exit = 2; break PART; }
    L175: {
     L176: {
      if ((l3 = (int) b[((int) (l4 + l2)) - 58912]) <= -1) { break L176; }
      l12 = 1L;
      break L175;
     }
     L177: {
      if (l3 + Integer.MIN_VALUE >= 2147483616) { break L177; }
      l12 = 2L;
      break L175;
     }
     l12 = (l3 + Integer.MIN_VALUE < 2147483632) ? 3L : 4L;
    }
    l9 = 0L;
    l10 = 0L;
    l11 = 0L;
    if (l5 != (l12 + l2)) { exit = 4; break PART; }
    exit = 2; break PART;
   }
   L178: {
    if (l15 + Integer.MIN_VALUE >= 2147483616) { break L178; }
    l10 = 2L;
    break L116;
   }
   l10 = (l15 + Integer.MIN_VALUE < 2147483632) ? 3L : 4L;
  }
 }
 m.kept[0] = l2;
 m.kept[1] = l3;
 m.kept[2] = l9;
 m.kept[3] = l10;
 m.kept[4] = l11;
 m.kept[5] = l12;
 m.kept[6] = l13;
 m.kept[7] = l14;
 m.kept[8] = l15;
 m.kept[9] = l16;
 m.kept[10] = l17;
 m.kept[11] = l19;
 m.kept[12] = l20;
 m.kept[13] = l21;
 m.kept[14] = l22;
 return exit;
}

static int f208_7(State m, long l4, long l5, long l9, long l10, long l11, int l16) {
 final byte[] b = m.bytes;
 int exit = 0;
 PART: {
  L180: {
   if (l5 == l10) { break L180; }
   L181: {
    L182: {
     if ((l16 = (int) b[((int) (l9 = l4 + l10)) - 58912]) <= -1) { break L182; }
     l11 = 1L;
     break L181;
    }
    L183: {
     if (l16 + Integer.MIN_VALUE >= 2147483616) { break L183; }
     l11 = 2L;
     break L181;
    }
    l11 = (l16 + Integer.MIN_VALUE < 2147483632) ? 3L : 4L;
   }
   if (l5 == (l10 = l11 + l10)) { break L180; }
   L184: {
    L185: {
     if ((l16 = (int) b[((int) (l9 = l9 + l11)) - 58912]) <= -1) { break L185; }
     l11 = 1L;
     break L184;
    }
    L186: {
     if (l16 + Integer.MIN_VALUE >= 2147483616) { break L186; }
     l11 = 2L;
     break L184;
    }
    l11 = (l16 + Integer.MIN_VALUE < 2147483632) ? 3L : 4L;
   }
   if (l5 == (l10 = l11 + l10)) { break L180; }
   L187: {
    L188: {
     if ((l16 = (int) b[((int) (l9 = l9 + l11)) - 58912]) <= -1) { break L188; }
     l11 = 1L;
     break L187;
    }
    L189: {
     if (l16 + Integer.MIN_VALUE >= 2147483616) { break L189; }
     l11 = 2L;
     break L187;
    }
    l11 = (l16 + Integer.MIN_VALUE < 2147483632) ? 3L : 4L;
   }
   if (l5 == (l10 = l11 + l10)) { break L180; }
   L190: {
    L191: {
     if ((l16 = (int) b[((int) (l9 + l11)) - 58912]) <= -1) { break L191; }
     l11 = 1L;
     break L190;
    }
    L192: {
     if (l16 + Integer.MIN_VALUE >= 2147483616) { break L192; }
     l11 = 2L;
     break L190;
    }
    l11 = (l16 + Integer.MIN_VALUE < 2147483632) ? 3L : 4L;
   }
   if (l5 != (l11 + l10)) { break L180; }
   if (f211(m, 92232L, 11L, l4, l5) != 0) { exit = 1; break PART; }
  }
 }
 m.kept[0] = l9;
 m.kept[1] = l10;
 m.kept[2] = l11;
 m.kept[3] = l16;
 return exit;
}

static int f208_8(State m, long l1, long l8, long l11) {
 final byte[] b = m.bytes;
 int exit = 0;
 PART: {
  L213: {
   if ((b[((int) l8) - 58872] & 0xff) == 1) { break L213; }
   Words.put64(b, ((int) l8) - 58856, 0L);
   Words.put64(b, ((int) l8) - 58864, 0L);
   Words.put64(b, ((int) l8) - 58872, 0L);
   Core6.f204(m, l8 + 40L, 92563L, 3L, l1, l11);
   if ((b[((int) l8) - 58872] & 0xff) == 1) { break L213; }
   Words.put64(b, ((int) l8) - 58856, 0L);
   Words.put64(b, ((int) l8) - 58864, 0L);
   Words.put64(b, ((int) l8) - 58872, 0L);
   Core6.f204(m, l8 + 40L, 92566L, 3L, l1, l11);
   if ((b[((int) l8) - 58872] & 0xff) == 1) { break L213; }
   Words.put64(b, ((int) l8) - 58856, 0L);
   Words.put64(b, ((int) l8) - 58864, 0L);
   Words.put64(b, ((int) l8) - 58872, 0L);
   Core6.f204(m, l8 + 40L, 92569L, 3L, l1, l11);
   if ((b[((int) l8) - 58872] & 0xff) == 1) { break L213; }
   Words.put64(b, ((int) l8) - 58856, 0L);
   Words.put64(b, ((int) l8) - 58864, 0L);
   Words.put64(b, ((int) l8) - 58872, 0L);
   Core6.f204(m, l8 + 40L, 92572L, 3L, l1, l11);
   if ((b[((int) l8) - 58872] & 0xff) == 1) { break L213; }
   Words.put64(b, ((int) l8) - 58856, 0L);
   Words.put64(b, ((int) l8) - 58864, 0L);
   Words.put64(b, ((int) l8) - 58872, 0L);
   Core6.f204(m, l8 + 40L, 92575L, 3L, l1, l11);
   if ((b[((int) l8) - 58872] & 0xff) != 1) { exit = 1; break PART; }
  }
 }
 return exit;
}

static int f208_9(State m, long l4, long l5, long l6, long l10, long l11, int l15, int l16, int l17, int l19, int l20, int l21) {
 final byte[] b = m.bytes;
 int exit = 0;
 PART: {
  L224: {
   if (l5 == l10) { break L224; }
   if (f212(m, l4, l5) == 0) { break L224; }
   L225: {
    L226: {
     if (l15 <= -1) { break L226; }
     l10 = 1L;
     break L225;
    }
    L227: {
     if (l15 + Integer.MIN_VALUE >= 2147483616) { break L227; }
     l10 = 2L;
     break L225;
    }
    l10 = (l15 + Integer.MIN_VALUE < 2147483632) ? 3L : 4L;
   }
   if (l5 == l10) { exit = 1; break PART; }
   L228: {
    L229: {
     if ((l16 = (int) b[((int) (l4 + l10)) - 58912]) <= -1) { break L229; }
     l11 = 1L;
     break L228;
    }
    L230: {
     if (l16 + Integer.MIN_VALUE >= 2147483616) { break L230; }
     l11 = 2L;
     break L228;
    }
    l11 = (l16 + Integer.MIN_VALUE < 2147483632) ? 3L : 4L;
   }
   if (l19 != 0) { exit = 1; break PART; }
   if (l5 != (l11 + l10)) { exit = 1; break PART; }
   if ((l16 = (int) b[((int) l6) - 58912]) > -1) { exit = 1; break PART; }
   if (l16 + Integer.MIN_VALUE < 2147483616) { exit = 1; break PART; }
   l17 = l16 & 255;
   l20 = (b[((int) l6) - 58911] & 0xff) & 63;
   l21 = (b[((int) l6) - 58910] & 0xff) & 63;
   L231: {
    L232: {
     if (l16 + Integer.MIN_VALUE > 2147483631) { break L232; }
     l16 = ((l20 << 6) | ((l17 << 12) & 61440)) | l21;
     break L231;
    }
    l16 = ((l21 << 6) | ((l20 << 12) | ((l17 << 18) & 1835008))) | ((b[((int) l6) - 58909] & 0xff) & 63);
   }
   L233: {
    if (l16 > 26375) { break L233; }
    L234: {
     if (l16 > 26084) { break L234; }
     if (l16 == 20803) { break L224; }
     if (l16 == 20998) { break L224; }
     if (l16 == 21495) { break L224; }
     exit = 1; break PART;
    }
    L235: {
     switch (l16 + -26085) {
     case 0: case 17: break L224;
     case 1: case 2: case 3: case 4: case 5: case 6: case 7: case 8: case 9: case 10: case 11: case 12: case 13: case 14: case 15: case 16: exit = 1; break PART;
     default: break L235;
     }
    }
    if (l16 == 26178) { break L224; }
    exit = 1; break PART;
   }
   L236: {
    if (l16 > 31185) { break L236; }
    if (l16 == 26376) { break L224; }
    if (l16 == 28857) { break L224; }
    exit = 1; break PART;
   }
   if (l16 == 31186) { break L224; }
   if (l16 == 40670) { break L224; }
   if (l16 != 34399) { exit = 1; break PART; }
  }
 }
 m.kept[0] = l10;
 m.kept[1] = l11;
 m.kept[2] = l16;
 m.kept[3] = l17;
 m.kept[4] = l20;
 m.kept[5] = l21;
 return exit;
}

static int f208_10(State m, long l1, long l2, long l4, long l5, long l6, long l7, long l8, long l9, long l10, long l11, int l15, int l16) {
 final byte[] b = m.bytes;
 int exit = 0;
 PART: {
  L241: {
   L242: {
    L243: {
     if (l5 == l10) { break L243; }
     L244: {
      L245: {
       if ((l16 = (int) b[((int) (l9 = l4 + l10)) - 58912]) <= -1) { break L245; }
       l11 = 1L;
       break L244;
      }
      L246: {
       if (l16 + Integer.MIN_VALUE >= 2147483616) { break L246; }
       l11 = 2L;
       break L244;
      }
      l11 = (l16 + Integer.MIN_VALUE < 2147483632) ? 3L : 4L;
     }
     if (l5 == (l10 = l11 + l10)) { break L243; }
     L247: {
      L248: {
       if ((l16 = (int) b[((int) (l9 + l11)) - 58912]) <= -1) { break L248; }
       l11 = 1L;
       break L247;
      }
      L249: {
       if (l16 + Integer.MIN_VALUE >= 2147483616) { break L249; }
       l11 = 2L;
       break L247;
      }
      l11 = (l16 + Integer.MIN_VALUE < 2147483632) ? 3L : 4L;
     }
     if (l5 == (l11 + l10)) { break L242; }
    }
    L250: {
     L251: {
      if (l15 <= -1) { break L251; }
      l10 = 1L;
      break L250;
     }
     L252: {
      if (l15 + Integer.MIN_VALUE >= 2147483616) { break L252; }
      l10 = 2L;
      break L250;
     }
     l10 = (l15 + Integer.MIN_VALUE < 2147483632) ? 3L : 4L;
    }
    if (l5 == l10) { break L241; }
    L253: {
     L254: {
      if ((l16 = (int) b[((int) (l9 = l4 + l10)) - 58912]) <= -1) { break L254; }
      l11 = 1L;
      break L253;
     }
     L255: {
      if (l16 + Integer.MIN_VALUE >= 2147483616) { break L255; }
      l11 = 2L;
      break L253;
     }
     l11 = (l16 + Integer.MIN_VALUE < 2147483632) ? 3L : 4L;
    }
    if (l5 == (l10 = l11 + l10)) { break L241; }
    L256: {
     L257: {
      if ((l16 = (int) b[((int) (l9 = l9 + l11)) - 58912]) <= -1) { break L257; }
      l11 = 1L;
      break L256;
     }
     L258: {
      if (l16 + Integer.MIN_VALUE >= 2147483616) { break L258; }
      l11 = 2L;
      break L256;
     }
     l11 = (l16 + Integer.MIN_VALUE < 2147483632) ? 3L : 4L;
    }
    if (l5 == (l10 = l11 + l10)) { break L241; }
    L259: {
     L260: {
      if ((l16 = (int) b[((int) (l9 + l11)) - 58912]) <= -1) { break L260; }
      l11 = 1L;
      break L259;
     }
     L261: {
      if (l16 + Integer.MIN_VALUE >= 2147483616) { break L261; }
      l11 = 2L;
      break L259;
     }
     l11 = (l16 + Integer.MIN_VALUE < 2147483632) ? 3L : 4L;
    }
    if (l5 != (l11 + l10)) { break L241; }
   }
   Words.put64(b, ((int) l8) - 58856, 0L);
   Words.put64(b, ((int) l8) - 58864, 0L);
   Words.put64(b, ((int) l8) - 58872, 0L);
   Core6.f197(m, l8 + 40L, 92872L, 3L, l6, l7);
   if ((b[((int) l8) - 58872] & 0xff) == 1) { exit = 1; break PART; }
   Words.put64(b, ((int) l8) - 58856, 0L);
   Words.put64(b, ((int) l8) - 58864, 0L);
   Words.put64(b, ((int) l8) - 58872, 0L);
   Core6.f197(m, l8 + 40L, 92875L, 3L, l6, l7);
   if ((b[((int) l8) - 58872] & 0xff) == 1) { exit = 1; break PART; }
   Words.put64(b, ((int) l8) - 58856, 0L);
   Words.put64(b, ((int) l8) - 58864, 0L);
   Words.put64(b, ((int) l8) - 58872, 0L);
   Core6.f197(m, l8 + 40L, 92878L, 6L, l6, l7);
   if ((b[((int) l8) - 58872] & 0xff) == 1) { exit = 1; break PART; }
   Words.put64(b, ((int) l8) - 58856, 0L);
   Words.put64(b, ((int) l8) - 58864, 0L);
   Words.put64(b, ((int) l8) - 58872, 0L);
   Core6.f197(m, l8 + 40L, 92884L, 6L, l6, l7);
   if ((b[((int) l8) - 58872] & 0xff) == 1) { exit = 1; break PART; }
   Words.put64(b, ((int) l8) - 58856, 0L);
   Words.put64(b, ((int) l8) - 58864, 0L);
   Words.put64(b, ((int) l8) - 58872, 0L);
   Core6.f197(m, l8 + 40L, 92890L, 6L, l6, l7);
   if ((b[((int) l8) - 58872] & 0xff) == 1) { exit = 1; break PART; }
   Words.put64(b, ((int) l8) - 58856, 0L);
   Words.put64(b, ((int) l8) - 58864, 0L);
   Words.put64(b, ((int) l8) - 58872, 0L);
   Core6.f197(m, l8 + 40L, 92896L, 6L, l6, l7);
   if ((b[((int) l8) - 58872] & 0xff) == 1) { exit = 1; break PART; }
   Words.put64(b, ((int) l8) - 58856, 0L);
   Words.put64(b, ((int) l8) - 58864, 0L);
   Words.put64(b, ((int) l8) - 58872, 0L);
   Core6.f197(m, l8 + 40L, 92902L, 6L, l6, l7);
   if ((b[((int) l8) - 58872] & 0xff) == 1) { exit = 1; break PART; }
   Words.put64(b, ((int) l8) - 58856, 0L);
   Words.put64(b, ((int) l8) - 58864, 0L);
   Words.put64(b, ((int) l8) - 58872, 0L);
   Core6.f197(m, l8 + 40L, 92908L, 6L, l6, l7);
   if ((b[((int) l8) - 58872] & 0xff) == 1) { exit = 1; break PART; }
   Words.put64(b, ((int) l8) - 58856, 0L);
   Words.put64(b, ((int) l8) - 58864, 0L);
   Words.put64(b, ((int) l8) - 58872, 0L);
   Core6.f197(m, l8 + 40L, 92914L, 6L, l6, l7);
   if ((b[((int) l8) - 58872] & 0xff) == 1) { exit = 1; break PART; }
   Words.put64(b, ((int) l8) - 58856, 0L);
   Words.put64(b, ((int) l8) - 58864, 0L);
   Words.put64(b, ((int) l8) - 58872, 0L);
   Core6.f197(m, l8 + 40L, 92920L, 6L, l6, l7);
   if ((b[((int) l8) - 58872] & 0xff) == 1) { exit = 1; break PART; }
   Words.put64(b, ((int) l8) - 58856, 0L);
   Words.put64(b, ((int) l8) - 58864, 0L);
   Words.put64(b, ((int) l8) - 58872, 0L);
   Core6.f197(m, l8 + 40L, 92926L, 9L, l6, l7);
   if ((b[((int) l8) - 58872] & 0xff) == 1) { exit = 1; break PART; }
   Words.put64(b, ((int) l8) - 58856, 0L);
   Words.put64(b, ((int) l8) - 58864, 0L);
   Words.put64(b, ((int) l8) - 58872, 0L);
   Core6.f197(m, l8 + 40L, 92935L, 9L, l6, l7);
   if ((b[((int) l8) - 58872] & 0xff) == 1) { exit = 1; break PART; }
   Words.put64(b, ((int) l8) - 58856, 0L);
   Words.put64(b, ((int) l8) - 58864, 0L);
   Words.put64(b, ((int) l8) - 58872, 0L);
   Core6.f197(m, l8 + 40L, 92944L, 6L, l6, l7);
   if ((b[((int) l8) - 58872] & 0xff) == 1) { exit = 1; break PART; }
   Words.put64(b, ((int) l8) - 58856, 0L);
   Words.put64(b, ((int) l8) - 58864, 0L);
   Words.put64(b, ((int) l8) - 58872, 0L);
   Core6.f197(m, l8 + 40L, 92950L, 6L, l6, l7);
   if ((b[((int) l8) - 58872] & 0xff) == 1) { exit = 1; break PART; }
   Words.put64(b, ((int) l8) - 58856, 0L);
   Words.put64(b, ((int) l8) - 58864, 0L);
   Words.put64(b, ((int) l8) - 58872, 0L);
   Core6.f197(m, l8 + 40L, 92956L, 6L, l6, l7);
   if ((b[((int) l8) - 58872] & 0xff) == 1) { exit = 1; break PART; }
   Words.put64(b, ((int) l8) - 58856, 0L);
   Words.put64(b, ((int) l8) - 58864, 0L);
   Words.put64(b, ((int) l8) - 58872, 0L);
   Core6.f197(m, l8 + 40L, 92962L, 6L, l6, l7);
   if ((b[((int) l8) - 58872] & 0xff) == 1) { exit = 1; break PART; }
   Words.put64(b, ((int) l8) - 58856, 0L);
   Words.put64(b, ((int) l8) - 58864, 0L);
   Words.put64(b, ((int) l8) - 58872, 0L);
   Core6.f197(m, l8 + 40L, 92968L, 6L, l6, l7);
   if ((b[((int) l8) - 58872] & 0xff) == 1) { exit = 1; break PART; }
   Words.put64(b, ((int) l8) - 58856, 0L);
   Words.put64(b, ((int) l8) - 58864, 0L);
   Words.put64(b, ((int) l8) - 58872, 0L);
   Core6.f197(m, l8 + 40L, 92974L, 6L, l6, l7);
   if ((b[((int) l8) - 58872] & 0xff) == 1) { exit = 1; break PART; }
   if (f217(m, l1, l2, l6, l7) != 0) { exit = 1; break PART; }
   l15 = b[((int) l4) - 58912] & 0xff;
  }
 }
 m.kept[0] = l9;
 m.kept[1] = l10;
 m.kept[2] = l11;
 m.kept[3] = l15;
 m.kept[4] = l16;
 return exit;
}

static int f208_11(State m, long l4, long l5, long l6, long l7, long l9, long l10, long l11, int l17, int l19, int l20, int l21, int l22) {
 final byte[] b = m.bytes;
 int exit = 0;
 PART: {
  L266: {
   if (l5 == l10) { break L266; }
   L267: {
    L268: {
     if ((l17 = (int) b[((int) (l9 = l4 + l10)) - 58912]) <= -1) { break L268; }
     l11 = 1L;
     break L267;
    }
    L269: {
     if (l17 + Integer.MIN_VALUE >= 2147483616) { break L269; }
     l11 = 2L;
     break L267;
    }
    l11 = (l17 + Integer.MIN_VALUE < 2147483632) ? 3L : 4L;
   }
   if (l5 == (l10 = l11 + l10)) { break L266; }
   L270: {
    L271: {
     if ((l17 = (int) b[((int) (l9 + l11)) - 58912]) <= -1) { break L271; }
     l11 = 1L;
     break L270;
    }
    L272: {
     if (l17 + Integer.MIN_VALUE >= 2147483616) { break L272; }
     l11 = 2L;
     break L270;
    }
    l11 = (l17 + Integer.MIN_VALUE < 2147483632) ? 3L : 4L;
   }
   if (l19 != 0) { break L266; }
   if (l5 != (l11 + l10)) { break L266; }
   if ((l17 = (int) b[((int) l6) - 58912]) > -1) { break L266; }
   if (l17 + Integer.MIN_VALUE < 2147483616) { break L266; }
   l20 = l17 & 255;
   l21 = (b[((int) l6) - 58911] & 0xff) & 63;
   l22 = (b[((int) l6) - 58910] & 0xff) & 63;
   L273: {
    L274: {
     if (l17 + Integer.MIN_VALUE > 2147483631) { break L274; }
     l20 = ((l21 << 6) | ((l20 << 12) & 61440)) | l22;
     break L273;
    }
    l20 = ((l22 << 6) | ((l21 << 12) | ((l20 << 18) & 1835008))) | ((b[((int) l6) - 58909] & 0xff) & 63);
   }
   if (l20 != 36335) { break L266; }
   if (l7 == (l10 = (l17 + Integer.MIN_VALUE < 2147483632) ? 3L : 4L)) { exit = 1; break PART; }
   if ((l17 = (int) b[((int) (l10 = l6 + l10)) - 58912]) > -1) { exit = 1; break PART; }
   if (l17 + Integer.MIN_VALUE < 2147483616) { exit = 1; break PART; }
   l20 = l17 & 255;
   l21 = (b[((int) l10) - 58911] & 0xff) & 63;
   l22 = (b[((int) l10) - 58910] & 0xff) & 63;
   L275: {
    L276: {
     if (l17 + Integer.MIN_VALUE > 2147483631) { break L276; }
     l17 = ((l21 << 6) | ((l20 << 12) & 61440)) | l22;
     break L275;
    }
    l17 = ((l22 << 6) | ((l21 << 12) | ((l20 << 18) & 1835008))) | ((b[((int) l10) - 58909] & 0xff) & 63);
   }
   if (l17 == 19978) { break L266; }
   if (l17 == 31243) { break L266; }
   if (l17 != 21475) { exit = 1; break PART; }
  }
 }
 m.kept[0] = l9;
 m.kept[1] = l10;
 m.kept[2] = l11;
 m.kept[3] = l17;
 m.kept[4] = l20;
 m.kept[5] = l21;
 m.kept[6] = l22;
 return exit;
}

static int f208_12(State m, long l1, long l2, long l4, long l5, long l6, long l7, long l8, long l9, long l10, long l11, int l15, int l16, int l17, int l18, int l20) {
 final byte[] b = m.bytes;
 int exit = 0;
 PART: {
  L281: {
   if (l5 == l10) { break L281; }
   L282: {
    L283: {
     if ((l16 = (int) b[((int) (l9 = l4 + l10)) - 58912]) <= -1) { break L283; }
     l11 = 1L;
     break L282;
    }
    L284: {
     if (l16 + Integer.MIN_VALUE >= 2147483616) { break L284; }
     l11 = 2L;
     break L282;
    }
    l11 = (l16 + Integer.MIN_VALUE < 2147483632) ? 3L : 4L;
   }
   if (l5 == (l10 = l11 + l10)) { break L281; }
   L285: {
    L286: {
     if ((l16 = (int) b[((int) (l9 = l9 + l11)) - 58912]) <= -1) { break L286; }
     l11 = 1L;
     break L285;
    }
    L287: {
     if (l16 + Integer.MIN_VALUE >= 2147483616) { break L287; }
     l11 = 2L;
     break L285;
    }
    l11 = (l16 + Integer.MIN_VALUE < 2147483632) ? 3L : 4L;
   }
   if (l5 == (l10 = l11 + l10)) { break L281; }
   L288: {
    L289: {
     if ((l16 = (int) b[((int) (l9 + l11)) - 58912]) <= -1) { break L289; }
     l11 = 1L;
     break L288;
    }
    L290: {
     if (l16 + Integer.MIN_VALUE >= 2147483616) { break L290; }
     l11 = 2L;
     break L288;
    }
    l11 = (l16 + Integer.MIN_VALUE < 2147483632) ? 3L : 4L;
   }
   if (l5 != (l11 + l10)) { break L281; }
   if (f211(m, 92984L, 2L, l4, l5) == 0) { break L281; }
   Words.put64(b, ((int) l8) - 58856, 0L);
   Words.put64(b, ((int) l8) - 58864, 0L);
   Words.put64(b, ((int) l8) - 58872, 0L);
   Core6.f197(m, l8 + 40L, 93216L, 3L, l6, l7);
   if ((b[((int) l8) - 58872] & 0xff) == 1) { exit = 1; break PART; }
   Words.put64(b, ((int) l8) - 58856, 0L);
   Words.put64(b, ((int) l8) - 58864, 0L);
   Words.put64(b, ((int) l8) - 58872, 0L);
   Core6.f197(m, l8 + 40L, 93219L, 3L, l6, l7);
   if ((b[((int) l8) - 58872] & 0xff) == 1) { exit = 1; break PART; }
   Words.put64(b, ((int) l8) - 58856, 0L);
   Words.put64(b, ((int) l8) - 58864, 0L);
   Words.put64(b, ((int) l8) - 58872, 0L);
   Core6.f197(m, l8 + 40L, 93222L, 3L, l6, l7);
   if ((b[((int) l8) - 58872] & 0xff) == 1) { exit = 1; break PART; }
   Words.put64(b, ((int) l8) - 58856, 0L);
   Words.put64(b, ((int) l8) - 58864, 0L);
   Words.put64(b, ((int) l8) - 58872, 0L);
   Core6.f197(m, l8 + 40L, 93225L, 3L, l6, l7);
   if ((b[((int) l8) - 58872] & 0xff) == 1) { exit = 1; break PART; }
   Words.put64(b, ((int) l8) - 58856, 0L);
   Words.put64(b, ((int) l8) - 58864, 0L);
   Words.put64(b, ((int) l8) - 58872, 0L);
   Core6.f197(m, l8 + 40L, 93228L, 3L, l6, l7);
   if ((b[((int) l8) - 58872] & 0xff) == 1) { exit = 1; break PART; }
   Words.put64(b, ((int) l8) - 58856, 0L);
   Words.put64(b, ((int) l8) - 58864, 0L);
   Words.put64(b, ((int) l8) - 58872, 0L);
   Core6.f197(m, l8 + 40L, 93231L, 3L, l6, l7);
   if ((b[((int) l8) - 58872] & 0xff) == 1) { exit = 1; break PART; }
   Words.put64(b, ((int) l8) - 58856, 0L);
   Words.put64(b, ((int) l8) - 58864, 0L);
   Words.put64(b, ((int) l8) - 58872, 0L);
   Core6.f197(m, l8 + 40L, 93234L, 6L, l6, l7);
   if ((b[((int) l8) - 58872] & 0xff) == 1) { exit = 1; break PART; }
   Words.put64(b, ((int) l8) - 58856, 0L);
   Words.put64(b, ((int) l8) - 58864, 0L);
   Words.put64(b, ((int) l8) - 58872, 0L);
   Core6.f197(m, l8 + 40L, 93240L, 6L, l6, l7);
   if ((b[((int) l8) - 58872] & 0xff) == 1) { exit = 1; break PART; }
   Words.put64(b, ((int) l8) - 58856, 0L);
   Words.put64(b, ((int) l8) - 58864, 0L);
   Words.put64(b, ((int) l8) - 58872, 0L);
   Core6.f197(m, l8 + 40L, 93246L, 6L, l6, l7);
   if ((b[((int) l8) - 58872] & 0xff) == 1) { exit = 1; break PART; }
   Words.put64(b, ((int) l8) - 58856, 0L);
   Words.put64(b, ((int) l8) - 58864, 0L);
   Words.put64(b, ((int) l8) - 58872, 0L);
   Core6.f197(m, l8 + 40L, 93252L, 6L, l6, l7);
   if ((b[((int) l8) - 58872] & 0xff) == 1) { exit = 1; break PART; }
   Words.put64(b, ((int) l8) - 58856, 0L);
   Words.put64(b, ((int) l8) - 58864, 0L);
   Words.put64(b, ((int) l8) - 58872, 0L);
   Core6.f197(m, l8 + 40L, 93258L, 6L, l6, l7);
   if ((b[((int) l8) - 58872] & 0xff) == 1) { exit = 1; break PART; }
   Words.put64(b, ((int) l8) - 58856, 0L);
   Words.put64(b, ((int) l8) - 58864, 0L);
   Words.put64(b, ((int) l8) - 58872, 0L);
   Core6.f197(m, l8 + 40L, 93264L, 6L, l6, l7);
   if ((b[((int) l8) - 58872] & 0xff) == 1) { exit = 1; break PART; }
   L291: {
    if (l18 != 0) { break L291; }
    if (((int) b[((int) ((l10 = l1 + l2) + -1L)) - 58912]) > -1) { break L291; }
    l11 = -2L;
    L292: {
     if ((b[((int) (l10 + -2L)) - 58912] & 0xff) + Integer.MIN_VALUE > -2147483457) { break L292; }
     l11 = ((b[((int) (l10 + -3L)) - 58912] & 0xff) + Integer.MIN_VALUE > -2147483457) ? -3L : -4L;
    }
    if ((l15 = (int) b[((int) (l10 = (l1 + l11) + l2)) - 58912]) > -1) { break L291; }
    if (l15 + Integer.MIN_VALUE < 2147483616) { break L291; }
    l16 = l15 & 255;
    l17 = (b[((int) l10) - 58911] & 0xff) & 63;
    l20 = (b[((int) l10) - 58910] & 0xff) & 63;
    L293: {
     L294: {
      if (l15 + Integer.MIN_VALUE > 2147483631) { break L294; }
      l15 = ((l17 << 6) | ((l16 << 12) & 61440)) | l20;
      break L293;
     }
     l15 = ((l20 << 6) | ((l17 << 12) | ((l16 << 18) & 1835008))) | ((b[((int) l10) - 58909] & 0xff) & 63);
    }
    if (l15 == 12308) { exit = 1; break PART; }
   }
   if (Core5.f176(m, l1, l2) != 0) { exit = 1; break PART; }
   l15 = b[((int) l4) - 58912] & 0xff;
  }
 }
 m.kept[0] = l9;
 m.kept[1] = l10;
 m.kept[2] = l11;
 m.kept[3] = l15;
 m.kept[4] = l16;
 m.kept[5] = l17;
 m.kept[6] = l20;
 return exit;
}

static int f208_13(State m, long l1, long l2, int l3, long l9, long l10, long l11, int l15, int l16, int l17, int l18) {
 final byte[] b = m.bytes;
 int exit = 0;
 PART: {
  L314: {
   L315: {
    if (l18 != 0) { break L315; }
    L316: {
     if ((l15 = (int) b[((int) ((l10 = l1 + l2) + -1L)) - 58912]) >= 0) { break L316; }
     l11 = -2L;
     L317: {
      if ((b[((int) (l10 + -2L)) - 58912] & 0xff) + Integer.MIN_VALUE > -2147483457) { break L317; }
      l11 = ((b[((int) (l10 + -3L)) - 58912] & 0xff) + Integer.MIN_VALUE > -2147483457) ? -3L : -4L;
     }
     l15 = (l16 = (int) b[((int) (l10 = (l1 + l11) + l2)) - 58912]) & 255;
     if (l16 > -1) { break L316; }
     l17 = (b[((int) l10) - 58911] & 0xff) & 63;
     L318: {
      L319: {
       if (l16 + Integer.MIN_VALUE > 2147483615) { break L319; }
       l15 = ((l15 << 6) & 1984) | l17;
       break L318;
      }
      l18 = (b[((int) l10) - 58910] & 0xff) & 63;
      L320: {
       if (l16 + Integer.MIN_VALUE > 2147483631) { break L320; }
       l15 = ((l17 << 6) | ((l15 << 12) & 61440)) | l18;
       break L318;
      }
      l15 = ((l18 << 6) | ((l17 << 12) | ((l15 << 18) & 1835008))) | ((b[((int) l10) - 58909] & 0xff) & 63);
     }
     l9 = 0L;
     if (l15 == 165) { exit = 1; break PART; }
     l10 = 0L;
     l11 = 0L;
     if (l15 == 65509) { exit = 2; break PART; }
    }
    l9 = 0L;
    l10 = 0L;
    l11 = 0L;
    if ((l3 | ((l15 == 36) ? 1 : 0)) == 0) { break L314; }
    exit = 2; break PART;
   }
   l9 = 0L;
   l10 = 0L;
   l11 = 0L;
   if (l3 != 0) { exit = 2; break PART; }
  }
 }
 m.kept[0] = l9;
 m.kept[1] = l10;
 m.kept[2] = l11;
 m.kept[3] = l15;
 m.kept[4] = l16;
 m.kept[5] = l17;
 m.kept[6] = l18;
 return exit;
}

static int f208_14(State m, int l3, long l4, long l5, long l8, long l9, long l10, long l11, int l15) {
 final byte[] b = m.bytes;
 int exit = 0;
 PART: {
  L325: {
   if (l5 == l10) { break L325; }
   L326: {
    L327: {
     if ((l15 = (int) b[((int) (l9 = l4 + l10)) - 58912]) <= -1) { break L327; }
     l11 = 1L;
     break L326;
    }
    L328: {
     if (l15 + Integer.MIN_VALUE >= 2147483616) { break L328; }
     l11 = 2L;
     break L326;
    }
    l11 = (l15 + Integer.MIN_VALUE < 2147483632) ? 3L : 4L;
   }
   if (l5 == (l10 = l11 + l10)) { break L325; }
   L329: {
    L330: {
     if ((l15 = (int) b[((int) (l9 = l9 + l11)) - 58912]) <= -1) { break L330; }
     l11 = 1L;
     break L329;
    }
    L331: {
     if (l15 + Integer.MIN_VALUE >= 2147483616) { break L331; }
     l11 = 2L;
     break L329;
    }
    l11 = (l15 + Integer.MIN_VALUE < 2147483632) ? 3L : 4L;
   }
   if (l5 == (l10 = l11 + l10)) { break L325; }
   L332: {
    L333: {
     if ((l15 = (int) b[((int) (l9 = l9 + l11)) - 58912]) <= -1) { break L333; }
     l11 = 1L;
     break L332;
    }
    L334: {
     if (l15 + Integer.MIN_VALUE >= 2147483616) { break L334; }
     l11 = 2L;
     break L332;
    }
    l11 = (l15 + Integer.MIN_VALUE < 2147483632) ? 3L : 4L;
   }
   if (l5 == (l10 = l11 + l10)) { break L325; }
   L335: {
    L336: {
     if ((l15 = (int) b[((int) (l9 = l9 + l11)) - 58912]) <= -1) { break L336; }
     l11 = 1L;
     break L335;
    }
    L337: {
     if (l15 + Integer.MIN_VALUE >= 2147483616) { break L337; }
     l11 = 2L;
     break L335;
    }
    l11 = (l15 + Integer.MIN_VALUE < 2147483632) ? 3L : 4L;
   }
   if (l5 == (l10 = l11 + l10)) { break L325; }
   L338: {
    L339: {
     if ((l15 = (int) b[((int) (l9 + l11)) - 58912]) <= -1) { break L339; }
     l11 = 1L;
     break L338;
    }
    L340: {
     if (l15 + Integer.MIN_VALUE >= 2147483616) { break L340; }
     l11 = 2L;
     break L338;
    }
    l11 = (l15 + Integer.MIN_VALUE < 2147483632) ? 3L : 4L;
   }
   if (l5 == (l11 + l10)) { break L325; }
   Words.put64(b, ((int) l8) - 58856, 0L);
   Words.put64(b, ((int) l8) - 58864, 0L);
   Words.put64(b, ((int) l8) - 58872, 0L);
   Core6.f204(m, l8 + 40L, 93504L, 5L, l4, l5);
   if ((b[((int) l8) - 58872] & 0xff) != 1) { exit = 1; break PART; }
   l3 = b[((int) l4) - 58912] & 0xff;
  }
 }
 m.kept[0] = l3;
 m.kept[1] = l9;
 m.kept[2] = l10;
 m.kept[3] = l11;
 m.kept[4] = l15;
 return exit;
}

static void f208(State m, long l0, long l1, long l2, int l3, long l4, long l5, long l6, long l7) {
 final byte[] b = m.bytes;
 long l8 = 0;
 long l9 = 0;
 long l10 = 0;
 long l11 = 0;
 long l12 = 0;
 long l13 = 0;
 long l14 = 0;
 int l15 = 0;
 int l16 = 0;
 int l17 = 0;
 int l18 = 0;
 int l19 = 0;
 int l20 = 0;
 int l21 = 0;
 int l22 = 0;
 m.g0 = l8 = m.g0 - 64L;
 L1: {
  L2: {
   L3: {
    L4: {
     if ((l8 = l8) < 16L) { break L4; }
     Words.put32(b, ((int) l8) - 58877, 0);
     Words.put32(b, ((int) l8) - 58880, 0);
     Words.put32(b, ((int) l8) - 58888, 0);
     Words.put32(b, ((int) l8) - 58885, 0);
     L5: {
      L6: {
       L7: {
        if (l3 == 0) { break L7; }
        final int x18 = f208_1(m, l3, l6, l7, l9, l10, l11, l15, l16, l17);
        l3 = (int) m.kept[0];
        l9 = m.kept[1];
        l10 = m.kept[2];
        l11 = m.kept[3];
        l15 = (int) m.kept[4];
        l16 = (int) m.kept[5];
        l17 = (int) m.kept[6];
        switch (x18) {
        case 1: break L1;
        case 2: break L2;
        }
        final int x34 = f208_2(m, l1, l2, l3, l4, l5, l6, l7, l8, l9, l10, l11, l15, l16, l17);
        l2 = m.kept[0];
        l3 = (int) m.kept[1];
        l9 = m.kept[2];
        l10 = m.kept[3];
        l11 = m.kept[4];
        l15 = (int) m.kept[5];
        l16 = (int) m.kept[6];
        l17 = (int) m.kept[7];
        switch (x34) {
        case 1: break L1;
        case 2: break L5;
        case 3: break L6;
        }
        if (l5 == 0L) { break L3; }
        L35: {
         L36: {
          if ((l3 = (int) b[((int) l4) - 58912]) <= -1) { break L36; }
          l12 = 1L;
          break L35;
         }
         L37: {
          if (l3 + Integer.MIN_VALUE >= 2147483616) { break L37; }
          l12 = 2L;
          break L35;
         }
         l12 = (l3 + Integer.MIN_VALUE < 2147483632) ? 3L : 4L;
        }
        l9 = 0L;
        l10 = 0L;
        l11 = 0L;
        if (l5 == l12) { break L1; }
        L38: {
         L39: {
          if ((l3 = (int) b[((int) (l4 + l12)) - 58912]) <= -1) { break L39; }
          l13 = 1L;
          break L38;
         }
         L40: {
          if (l3 + Integer.MIN_VALUE >= 2147483616) { break L40; }
          l13 = 2L;
          break L38;
         }
         l13 = (l3 + Integer.MIN_VALUE < 2147483632) ? 3L : 4L;
        }
        l9 = 0L;
        l10 = 0L;
        l11 = 0L;
        if (l5 == (l13 + l12)) { break L1; }
        l10 = l4;
        l9 = l5;
        L41: {
         L42: while (true) {
          if (l9 == 0L) { break L41; }
          l3 = (l15 = (int) b[((int) l10) - 58912]) & 255;
          l11 = 1L;
          L43: {
           if (l15 > -1) { break L43; }
           l16 = (b[((int) l10) - 58911] & 0xff) & 63;
           L44: {
            if (l15 + Integer.MIN_VALUE > 2147483615) { break L44; }
            l3 = ((l3 << 6) & 1984) | l16;
            l11 = 2L;
            break L43;
           }
           l17 = (b[((int) l10) - 58910] & 0xff) & 63;
           L45: {
            if (l15 + Integer.MIN_VALUE > 2147483631) { break L45; }
            l3 = ((l16 << 6) | ((l3 << 12) & 61440)) | l17;
            l11 = 3L;
            break L43;
           }
           l3 = ((l17 << 6) | ((l16 << 12) | ((l3 << 18) & 1835008))) | ((b[((int) l10) - 58909] & 0xff) & 63);
           l11 = 4L;
          }
          l9 = l9 - l11;
          l10 = l10 + l11;
          if (l3 != 24186) { continue L42; }
          break L5;
         }
        }
        if (f212(m, l4, l5) != 0) { break L5; }
        if (f216(m, l4, l5) != 0) { break L5; }
        if (f213(m, l1, l2) != 0) { break L5; }
        L46: {
         L47: {
          if ((l3 = (int) b[((int) l4) - 58912]) <= -1) { break L47; }
          l10 = 1L;
          break L46;
         }
         L48: {
          if (l3 + Integer.MIN_VALUE >= 2147483616) { break L48; }
          l10 = 2L;
          break L46;
         }
         l10 = (l3 + Integer.MIN_VALUE < 2147483632) ? 3L : 4L;
        }
        final int x60 = f208_3(m, l1, l2, l3, l4, l5, l6, l7, l9, l10, l11, l15);
        l3 = (int) m.kept[0];
        l9 = m.kept[1];
        l10 = m.kept[2];
        l11 = m.kept[3];
        l15 = (int) m.kept[4];
        switch (x60) {
        case 1: break L5;
        }
        L61: {
         L62: {
          if (((int) (byte) l3) <= -1) { break L62; }
          l2 = 1L;
          break L61;
         }
         L63: {
          if ((l3 = l3 & 255) + Integer.MIN_VALUE >= -2147483424) { break L63; }
          l2 = 2L;
          break L61;
         }
         l2 = (l3 + Integer.MIN_VALUE < -2147483408) ? 3L : 4L;
        }
        l9 = 0L;
        l10 = 0L;
        l11 = 0L;
        if (l5 == l2) { break L1; }
        L64: {
         L65: {
          if ((l3 = (int) b[((int) (l1 = l4 + l2)) - 58912]) <= -1) { break L65; }
          l12 = 1L;
          break L64;
         }
         L66: {
          if (l3 + Integer.MIN_VALUE >= 2147483616) { break L66; }
          l12 = 2L;
          break L64;
         }
         l12 = (l3 + Integer.MIN_VALUE < 2147483632) ? 3L : 4L;
        }
        l9 = 0L;
        l10 = 0L;
        l11 = 0L;
        if (l5 == (l2 = l12 + l2)) { break L1; }
        L67: {
         L68: {
          if ((l3 = (int) b[((int) (l1 = l1 + l12)) - 58912]) <= -1) { break L68; }
          l12 = 1L;
          break L67;
         }
         L69: {
          if (l3 + Integer.MIN_VALUE >= 2147483616) { break L69; }
          l12 = 2L;
          break L67;
         }
         l12 = (l3 + Integer.MIN_VALUE < 2147483632) ? 3L : 4L;
        }
        l9 = 0L;
        l10 = 0L;
        l11 = 0L;
        if (l5 == (l2 = l12 + l2)) { break L1; }
        L70: {
         L71: {
          if ((l3 = (int) b[((int) (l1 = l1 + l12)) - 58912]) <= -1) { break L71; }
          l12 = 1L;
          break L70;
         }
         L72: {
          if (l3 + Integer.MIN_VALUE >= 2147483616) { break L72; }
          l12 = 2L;
          break L70;
         }
         l12 = (l3 + Integer.MIN_VALUE < 2147483632) ? 3L : 4L;
        }
        l9 = 0L;
        l10 = 0L;
        l11 = 0L;
        if (l5 == (l2 = l12 + l2)) { break L1; }
        L73: {
         L74: {
          if ((l3 = (int) b[((int) (l1 = l1 + l12)) - 58912]) <= -1) { break L74; }
          l12 = 1L;
          break L73;
         }
         L75: {
          if (l3 + Integer.MIN_VALUE >= 2147483616) { break L75; }
          l12 = 2L;
          break L73;
         }
         l12 = (l3 + Integer.MIN_VALUE < 2147483632) ? 3L : 4L;
        }
        l9 = 0L;
        l10 = 0L;
        l11 = 0L;
        if (l5 == (l2 = l12 + l2)) { break L1; }
        L76: {
         L77: {
          if ((l3 = (int) b[((int) (l1 + l12)) - 58912]) <= -1) { break L77; }
          l12 = 1L;
          break L76;
         }
         L78: {
          if (l3 + Integer.MIN_VALUE >= 2147483616) { break L78; }
          l12 = 2L;
          break L76;
         }
         l12 = (l3 + Integer.MIN_VALUE < 2147483632) ? 3L : 4L;
        }
        l9 = 0L;
        l10 = 0L;
        l11 = 0L;
        if (l5 == (l12 + l2)) { break L1; }
        l17 = 0;
        final int x90 = f208_4(m, l3, l4, l5, l8, l10, l15, l16, l17, l18);
        l3 = (int) m.kept[0];
        l4 = m.kept[1];
        l5 = m.kept[2];
        l10 = m.kept[3];
        l15 = (int) m.kept[4];
        l16 = (int) m.kept[5];
        l17 = (int) m.kept[6];
        l18 = (int) m.kept[7];
        switch (x90) {
        case 1: break L3;
        default: break L5;
        }
       }
       l9 = 0L;
       l10 = 0L;
       l11 = 0L;
       if (Core6.f196(m, l6, l7) != 0) { break L1; }
       final int x112 = f208_5(m, l1, l2, l3, l4, l5, l9, l10, l11, l12, l13, l15, l16, l17, l18, l19);
       l3 = (int) m.kept[0];
       l9 = m.kept[1];
       l10 = m.kept[2];
       l11 = m.kept[3];
       l12 = m.kept[4];
       l13 = m.kept[5];
       l15 = (int) m.kept[6];
       l16 = (int) m.kept[7];
       l17 = (int) m.kept[8];
       l18 = (int) m.kept[9];
       l19 = (int) m.kept[10];
       switch (x112) {
       case 1: break L1;
       }
       L113: {
        L114: {
         L115: {
          final int x179 = f208_6(m, l1, l2, l3, l4, l5, l6, l7, l9, l10, l11, l12, l13, l14, l15, l16, l17, l18, l19, l20, l21, l22);
          l2 = m.kept[0];
          l3 = (int) m.kept[1];
          l9 = m.kept[2];
          l10 = m.kept[3];
          l11 = m.kept[4];
          l12 = m.kept[5];
          l13 = m.kept[6];
          l14 = m.kept[7];
          l15 = (int) m.kept[8];
          l16 = (int) m.kept[9];
          l17 = (int) m.kept[10];
          l19 = (int) m.kept[11];
          l20 = (int) m.kept[12];
          l21 = (int) m.kept[13];
          l22 = (int) m.kept[14];
          switch (x179) {
          case 1: break L3;
          case 2: break L1;
          case 3: break L2;
          case 4: break L5;
          case 5: break L115;
          }
          final int x193 = f208_7(m, l4, l5, l9, l10, l11, l16);
          l9 = m.kept[0];
          l10 = m.kept[1];
          l11 = m.kept[2];
          l16 = (int) m.kept[3];
          switch (x193) {
          case 1: break L5;
          }
          L194: {
           L195: {
            if (l15 <= -1) { break L195; }
            l10 = 1L;
            break L194;
           }
           L196: {
            if (l15 + Integer.MIN_VALUE >= 2147483616) { break L196; }
            l10 = 2L;
            break L194;
           }
           l10 = (l15 + Integer.MIN_VALUE < 2147483632) ? 3L : 4L;
          }
          if (l5 == l10) { break L114; }
          L197: {
           L198: {
            if ((l15 = (int) b[((int) (l9 = l4 + l10)) - 58912]) <= -1) { break L198; }
            l11 = 1L;
            break L197;
           }
           L199: {
            if (l15 + Integer.MIN_VALUE >= 2147483616) { break L199; }
            l11 = 2L;
            break L197;
           }
           l11 = (l15 + Integer.MIN_VALUE < 2147483632) ? 3L : 4L;
          }
          if (l5 == (l10 = l11 + l10)) { break L114; }
          L200: {
           L201: {
            if ((l15 = (int) b[((int) (l9 + l11)) - 58912]) <= -1) { break L201; }
            l11 = 1L;
            break L200;
           }
           L202: {
            if (l15 + Integer.MIN_VALUE >= 2147483616) { break L202; }
            l11 = 2L;
            break L200;
           }
           l11 = (l15 + Integer.MIN_VALUE < 2147483632) ? 3L : 4L;
          }
          if (l5 != (l11 + l10)) { break L114; }
          l15 = f211(m, 92464L, 6L, l4, l5);
          if (l18 != 0) { break L114; }
          if (l15 == 0) { break L114; }
          if (((int) b[((int) ((l10 = l1 + l2) + -1L)) - 58912]) > -1) { break L114; }
          l11 = -2L;
          L203: {
           if ((l15 = b[((int) (l10 + -2L)) - 58912] & 0xff) + Integer.MIN_VALUE > -2147483457) { break L203; }
           l11 = ((b[((int) (l10 + -3L)) - 58912] & 0xff) + Integer.MIN_VALUE > -2147483457) ? -3L : -4L;
          }
          L204: {
           if ((l16 = (int) b[((int) (l11 = (l1 + l11) + l2)) - 58912]) > -1) { break L204; }
           if (l16 + Integer.MIN_VALUE < 2147483616) { break L204; }
           l17 = l16 & 255;
           l20 = (b[((int) l11) - 58911] & 0xff) & 63;
           l21 = (b[((int) l11) - 58910] & 0xff) & 63;
           L205: {
            L206: {
             if (l16 + Integer.MIN_VALUE > 2147483631) { break L206; }
             l16 = ((l20 << 6) | ((l17 << 12) & 61440)) | l21;
             break L205;
            }
            l16 = ((l21 << 6) | ((l20 << 12) | ((l17 << 18) & 1835008))) | ((b[((int) l11) - 58909] & 0xff) & 63);
           }
           L207: {
            if (l16 > 25319) { break L207; }
            if (l16 == 21483) { break L5; }
            if (l16 != 25171) { break L204; }
            break L5;
           }
           if (l16 == 25320) { break L5; }
           if (l16 == 25765) { break L5; }
          }
          L208: {
           L209: {
            if (l15 + Integer.MIN_VALUE < -2147483456) { break L209; }
            l10 = -2L;
            l11 = l2 + -2L;
            break L208;
           }
           l11 = (l10 = ((b[((int) (l10 + -3L)) - 58912] & 0xff) + Integer.MIN_VALUE > -2147483457) ? -3L : -4L) + l2;
          }
          if ((l15 = (int) b[((int) (l10 = (l1 + l10) + l2)) - 58912]) > -1) { break L114; }
          if (l15 + Integer.MIN_VALUE < 2147483616) { break L114; }
          l16 = l15 & 255;
          l17 = (b[((int) l10) - 58911] & 0xff) & 63;
          l20 = (b[((int) l10) - 58910] & 0xff) & 63;
          L210: {
           L211: {
            if (l15 + Integer.MIN_VALUE > 2147483631) { break L211; }
            l15 = ((l17 << 6) | ((l16 << 12) & 61440)) | l20;
            break L210;
           }
           l15 = ((l20 << 6) | ((l17 << 12) | ((l16 << 18) & 1835008))) | ((b[((int) l10) - 58909] & 0xff) & 63);
          }
          L212: {
           if (l15 == 12289) { break L212; }
           if (l15 == 25110) { break L212; }
           if (l15 != 21644) { break L114; }
          }
          Words.put64(b, ((int) l8) - 58856, 0L);
          Words.put64(b, ((int) l8) - 58864, 0L);
          Words.put64(b, ((int) l8) - 58872, 0L);
          Core6.f204(m, l8 + 40L, 92560L, 3L, l1, l11);
          final int x214 = f208_8(m, l1, l8, l11);
          switch (x214) {
          case 1: break L114;
          }
          Words.put64(b, ((int) l8) - 58856, 0L);
          Words.put64(b, ((int) l8) - 58864, 0L);
          Words.put64(b, ((int) l8) - 58872, 0L);
          Core6.f204(m, l8 + 40L, 92560L, 3L, l1, l11);
          L215: {
           L216: {
            if ((b[((int) l8) - 58872] & 0xff) == 1) { break L216; }
            Core6.f204(m, l8 + 40L, 92563L, 3L, l1, l11);
            if ((b[((int) l8) - 58872] & 0xff) == 1) { break L216; }
            Core6.f204(m, l8 + 40L, 92566L, 3L, l1, l11);
            if ((b[((int) l8) - 58872] & 0xff) == 1) { break L216; }
            Core6.f204(m, l8 + 40L, 92569L, 3L, l1, l11);
            if ((b[((int) l8) - 58872] & 0xff) == 1) { break L216; }
            Core6.f204(m, l8 + 40L, 92572L, 3L, l1, l11);
            if ((b[((int) l8) - 58872] & 0xff) == 1) { break L216; }
            Core6.f204(m, l8 + 40L, 92575L, 3L, l1, l11);
            l10 = l1;
            if ((b[((int) l8) - 58872] & 0xff) != 1) { break L215; }
           }
           l11 = Words.get64(b, ((int) l8) - 58856);
           l10 = Words.get64(b, ((int) l8) - 58864);
          }
          if (l11 == 0L) { break L114; }
          if (((int) b[((int) ((l9 = l10 + l11) + -1L)) - 58912]) > -1) { break L114; }
          l12 = -2L;
          L217: {
           if ((b[((int) (l9 + -2L)) - 58912] & 0xff) + Integer.MIN_VALUE > -2147483457) { break L217; }
           l12 = ((b[((int) (l9 + -3L)) - 58912] & 0xff) + Integer.MIN_VALUE > -2147483457) ? -3L : -4L;
          }
          if ((l15 = (int) b[((int) (l10 = (l10 + l12) + l11)) - 58912]) > -1) { break L114; }
          if (l15 + Integer.MIN_VALUE < 2147483616) { break L114; }
          l16 = l15 & 255;
          l17 = (b[((int) l10) - 58911] & 0xff) & 63;
          l20 = (b[((int) l10) - 58910] & 0xff) & 63;
          L218: {
           L219: {
            if (l15 + Integer.MIN_VALUE > 2147483631) { break L219; }
            l15 = ((l17 << 6) | ((l16 << 12) & 61440)) | l20;
            break L218;
           }
           l15 = ((l20 << 6) | ((l17 << 12) | ((l16 << 18) & 1835008))) | ((b[((int) l10) - 58909] & 0xff) & 63);
          }
          L220: {
           if (l15 > 25319) { break L220; }
           if (l15 == 21483) { break L5; }
           if (l15 != 25171) { break L114; }
           break L5;
          }
          if (l15 == 25320) { break L5; }
          if (l15 != 25765) { break L114; }
          break L5;
         }
         if (l3 != 0) { break L113; }
        }
        L221: {
         L222: {
          if ((l15 = (int) b[((int) l4) - 58912]) <= -1) { break L222; }
          l10 = 1L;
          break L221;
         }
         L223: {
          if (l15 + Integer.MIN_VALUE >= 2147483616) { break L223; }
          l10 = 2L;
          break L221;
         }
         l10 = (l15 + Integer.MIN_VALUE < 2147483632) ? 3L : 4L;
        }
        final int x237 = f208_9(m, l4, l5, l6, l10, l11, l15, l16, l17, l19, l20, l21);
        l10 = m.kept[0];
        l11 = m.kept[1];
        l16 = (int) m.kept[2];
        l17 = (int) m.kept[3];
        l20 = (int) m.kept[4];
        l21 = (int) m.kept[5];
        switch (x237) {
        case 1: break L5;
        }
        L238: {
         L239: {
          if (l15 <= -1) { break L239; }
          l10 = 1L;
          break L238;
         }
         L240: {
          if (l15 + Integer.MIN_VALUE >= 2147483616) { break L240; }
          l10 = 2L;
          break L238;
         }
         l10 = (l15 + Integer.MIN_VALUE < 2147483632) ? 3L : 4L;
        }
        final int x262 = f208_10(m, l1, l2, l4, l5, l6, l7, l8, l9, l10, l11, l15, l16);
        l9 = m.kept[0];
        l10 = m.kept[1];
        l11 = m.kept[2];
        l15 = (int) m.kept[3];
        l16 = (int) m.kept[4];
        switch (x262) {
        case 1: break L5;
        }
        L263: {
         L264: {
          if ((l16 = (int) (byte) l15) <= -1) { break L264; }
          l10 = 1L;
          break L263;
         }
         L265: {
          if ((l17 = l15 & 255) + Integer.MIN_VALUE >= -2147483424) { break L265; }
          l10 = 2L;
          break L263;
         }
         l10 = (l17 + Integer.MIN_VALUE < -2147483408) ? 3L : 4L;
        }
        final int x277 = f208_11(m, l4, l5, l6, l7, l9, l10, l11, l17, l19, l20, l21, l22);
        l9 = m.kept[0];
        l10 = m.kept[1];
        l11 = m.kept[2];
        l17 = (int) m.kept[3];
        l20 = (int) m.kept[4];
        l21 = (int) m.kept[5];
        l22 = (int) m.kept[6];
        switch (x277) {
        case 1: break L5;
        }
        L278: {
         L279: {
          if (l16 <= -1) { break L279; }
          l10 = 1L;
          break L278;
         }
         L280: {
          if ((l16 = l15 & 255) + Integer.MIN_VALUE >= -2147483424) { break L280; }
          l10 = 2L;
          break L278;
         }
         l10 = (l16 + Integer.MIN_VALUE < -2147483408) ? 3L : 4L;
        }
        final int x295 = f208_12(m, l1, l2, l4, l5, l6, l7, l8, l9, l10, l11, l15, l16, l17, l18, l20);
        l9 = m.kept[0];
        l10 = m.kept[1];
        l11 = m.kept[2];
        l15 = (int) m.kept[3];
        l16 = (int) m.kept[4];
        l17 = (int) m.kept[5];
        l20 = (int) m.kept[6];
        switch (x295) {
        case 1: break L5;
        }
        L296: {
         L297: {
          if (((int) (byte) l15) <= -1) { break L297; }
          l10 = 1L;
          break L296;
         }
         L298: {
          if ((l15 = l15 & 255) + Integer.MIN_VALUE >= -2147483424) { break L298; }
          l10 = 2L;
          break L296;
         }
         l10 = (l15 + Integer.MIN_VALUE < -2147483408) ? 3L : 4L;
        }
        if (l5 == l10) { break L113; }
        L299: {
         L300: {
          if ((l15 = (int) b[((int) (l4 + l10)) - 58912]) <= -1) { break L300; }
          l11 = 1L;
          break L299;
         }
         L301: {
          if (l15 + Integer.MIN_VALUE >= 2147483616) { break L301; }
          l11 = 2L;
          break L299;
         }
         l11 = (l15 + Integer.MIN_VALUE < 2147483632) ? 3L : 4L;
        }
        if (l5 != (l11 + l10)) { break L113; }
        l15 = f211(m, 93272L, 12L, l4, l5);
        if (l19 != 0) { break L113; }
        if (l15 == 0) { break L113; }
        if ((l15 = (int) b[((int) l6) - 58912]) > -1) { break L113; }
        if (l15 + Integer.MIN_VALUE < 2147483616) { break L113; }
        l16 = l15 & 255;
        l17 = (b[((int) l6) - 58911] & 0xff) & 63;
        l19 = (b[((int) l6) - 58910] & 0xff) & 63;
        L302: {
         L303: {
          if (l15 + Integer.MIN_VALUE > 2147483631) { break L303; }
          l16 = ((l17 << 6) | ((l16 << 12) & 61440)) | l19;
          break L302;
         }
         l16 = ((l19 << 6) | ((l17 << 12) | ((l16 << 18) & 1835008))) | ((b[((int) l6) - 58909] & 0xff) & 63);
        }
        L304: {
         if (l16 == 24460) { break L304; }
         if (l16 != 21518) { break L113; }
        }
        L305: {
         if (l7 == (l10 = (l15 + Integer.MIN_VALUE < 2147483632) ? 3L : 4L)) { break L305; }
         if ((l15 = (int) b[((int) (l10 = l6 + l10)) - 58912]) > -1) { break L305; }
         if (l15 + Integer.MIN_VALUE < 2147483616) { break L305; }
         l16 = l15 & 255;
         l17 = (b[((int) l10) - 58911] & 0xff) & 63;
         l19 = (b[((int) l10) - 58910] & 0xff) & 63;
         L306: {
          L307: {
           if (l15 + Integer.MIN_VALUE > 2147483631) { break L307; }
           l15 = ((l17 << 6) | ((l16 << 12) & 61440)) | l19;
           break L306;
          }
          l15 = ((l19 << 6) | ((l17 << 12) | ((l16 << 18) & 1835008))) | ((b[((int) l10) - 58909] & 0xff) & 63);
         }
         L308: {
          if (l15 > 23453) { break L308; }
          if (l15 == 20184) { break L113; }
          if (l15 != 20877) { break L305; }
          break L113;
         }
         if (l15 == 23454) { break L113; }
         if (l15 == 23526) { break L113; }
        }
        if (l18 != 0) { break L5; }
        if (((int) b[((int) ((l10 = l1 + l2) + -1L)) - 58912]) > -1) { break L5; }
        l11 = -2L;
        L309: {
         if ((b[((int) (l10 + -2L)) - 58912] & 0xff) + Integer.MIN_VALUE > -2147483457) { break L309; }
         l11 = ((b[((int) (l10 + -3L)) - 58912] & 0xff) + Integer.MIN_VALUE > -2147483457) ? -3L : -4L;
        }
        if ((l15 = (int) b[((int) (l10 = (l1 + l11) + l2)) - 58912]) > -1) { break L5; }
        if (l15 + Integer.MIN_VALUE < 2147483616) { break L5; }
        l16 = l15 & 255;
        l17 = (b[((int) l10) - 58911] & 0xff) & 63;
        l19 = (b[((int) l10) - 58910] & 0xff) & 63;
        L310: {
         L311: {
          if (l15 + Integer.MIN_VALUE > 2147483631) { break L311; }
          l15 = ((l17 << 6) | ((l16 << 12) & 61440)) | l19;
          break L310;
         }
         l15 = ((l19 << 6) | ((l17 << 12) | ((l16 << 18) & 1835008))) | ((b[((int) l10) - 58909] & 0xff) & 63);
        }
        L312: {
         if (l15 > 21151) { break L312; }
         if (l15 == 20184) { break L113; }
         if (l15 == 20849) { break L113; }
         if (l15 == 20943) { break L113; }
         break L5;
        }
        L313: {
         if (l15 > 28384) { break L313; }
         if (l15 == 21152) { break L113; }
         if (l15 == 28187) { break L113; }
         break L5;
        }
        if (l15 == 28415) { break L113; }
        if (l15 != 28385) { break L5; }
       }
       l9 = 0L;
       l10 = 0L;
       l11 = 0L;
       if (f215(m, l6, l7) != 0) { break L1; }
       final int x321 = f208_13(m, l1, l2, l3, l9, l10, l11, l15, l16, l17, l18);
       l9 = m.kept[0];
       l10 = m.kept[1];
       l11 = m.kept[2];
       l15 = (int) m.kept[3];
       l16 = (int) m.kept[4];
       l17 = (int) m.kept[5];
       l18 = (int) m.kept[6];
       switch (x321) {
       case 1: break L2;
       case 2: break L1;
       }
       L322: {
        L323: {
         if ((l3 = (int) b[((int) l4) - 58912]) <= -1) { break L323; }
         l10 = 1L;
         break L322;
        }
        L324: {
         if (l3 + Integer.MIN_VALUE >= 2147483616) { break L324; }
         l10 = 2L;
         break L322;
        }
        l10 = (l3 + Integer.MIN_VALUE < 2147483632) ? 3L : 4L;
       }
       final int x341 = f208_14(m, l3, l4, l5, l8, l9, l10, l11, l15);
       l3 = (int) m.kept[0];
       l9 = m.kept[1];
       l10 = m.kept[2];
       l11 = m.kept[3];
       l15 = (int) m.kept[4];
       switch (x341) {
       case 1: break L5;
       }
       L342: {
        L343: {
         if (((int) (byte) l3) <= -1) { break L343; }
         l12 = 1L;
         break L342;
        }
        L344: {
         if ((l3 = l3 & 255) + Integer.MIN_VALUE >= -2147483424) { break L344; }
         l12 = 2L;
         break L342;
        }
        l12 = (l3 + Integer.MIN_VALUE < -2147483408) ? 3L : 4L;
       }
       l9 = 0L;
       l10 = 0L;
       l11 = 0L;
       if (l5 == l12) { break L1; }
       L345: {
        L346: {
         if ((l3 = (int) b[((int) (l4 + l12)) - 58912]) <= -1) { break L346; }
         l4 = 1L;
         break L345;
        }
        L347: {
         if (l3 + Integer.MIN_VALUE >= 2147483616) { break L347; }
         l4 = 2L;
         break L345;
        }
        l4 = (l3 + Integer.MIN_VALUE < 2147483632) ? 3L : 4L;
       }
       l9 = 0L;
       l10 = 0L;
       l11 = 0L;
       if (l5 == (l4 + l12)) { break L1; }
       l9 = 0L;
       l10 = 0L;
       l11 = 0L;
       if (f213(m, l1, l2) != 0) { break L5; }
       break L1;
      }
      l10 = 0L;
      l11 = 0L;
      if ((l15 & 255) != 1) { break L1; }
     }
     Words.put32(b, ((int) l8) - 58877, Words.get32(b, ((int) l8) - 58885));
     Words.put32(b, ((int) l8) - 58880, Words.get32(b, ((int) l8) - 58888));
     l11 = 1L;
     l9 = l6;
     l10 = l7;
     break L1;
    }
    throw State.trap();
   }
   l9 = 0L;
  }
  l10 = 0L;
  l11 = 0L;
 }
 Words.put64(b, ((int) l0) - 58912, l11);
 b[((int) (l0 + 8L)) - 58912] = (byte) 0;
 Words.put32(b, ((int) (l0 + 9L)) - 58912, Words.get32(b, ((int) l8) - 58880));
 Words.put32(b, ((int) (l0 + 12L)) - 58912, Words.get32(b, ((int) l8) - 58877));
 Words.put64(b, ((int) (l0 + 24L)) - 58912, l10);
 Words.put64(b, ((int) (l0 + 16L)) - 58912, l9);
 m.g0 = l8 + 64L;
}

static int f209(State m, long l0, long l1) {
 final byte[] b = m.bytes;
 int l2 = 0;
 int l3 = 0;
 int l4 = 0;
 int l5 = 0;
 long l6 = 0;
 long l7 = 0;
 L1: {
  if (m.g0 < 16L) { break L1; }
  l2 = 0;
  L2: {
   if (l1 == 0L) { break L2; }
   L3: {
    if (((int) b[((int) ((l6 = l0 + l1) + -1L)) - 58912]) > -1) { break L3; }
    l7 = -2L;
    L4: {
     if ((b[((int) (l6 + -2L)) - 58912] & 0xff) + Integer.MIN_VALUE > -2147483457) { break L4; }
     l7 = ((b[((int) (l6 + -3L)) - 58912] & 0xff) + Integer.MIN_VALUE > -2147483457) ? -3L : -4L;
    }
    if ((l2 = (int) b[((int) (l1 = (l0 + l7) + l1)) - 58912]) > -1) { break L3; }
    if (l2 + Integer.MIN_VALUE < 2147483616) { break L3; }
    l3 = l2 & 255;
    l4 = (b[((int) l1) - 58911] & 0xff) & 63;
    l5 = (b[((int) l1) - 58910] & 0xff) & 63;
    L5: {
     L6: {
      if (l2 + Integer.MIN_VALUE > 2147483631) { break L6; }
      l3 = ((l4 << 6) | ((l3 << 12) & 61440)) | l5;
      break L5;
     }
     l3 = ((l5 << 6) | ((l4 << 12) | ((l3 << 18) & 1835008))) | ((b[((int) l1) - 58909] & 0xff) & 63);
    }
    l2 = 1;
    L7: {
     if (l3 > 28856) { break L7; }
     L8: {
      if (l3 > 21312) { break L8; }
      if (l3 == 19975) { break L2; }
      if (l3 == 20159) { break L2; }
      if (l3 != 20740) { break L3; }
      break L2;
     }
     switch (l3 + -21313) {
     case 0: case 2: break L2;
     default: break L3;
     }
    }
    L9: {
     if (l3 > 31531) { break L9; }
     if (l3 == 28857) { break L2; }
     if (l3 != 30334) { break L3; }
     break L2;
    }
    if (l3 == 31532) { break L2; }
    if (l3 == 33836) { break L2; }
    if (l3 == 40670) { break L2; }
   }
   l2 = 0;
  }
  final int t10 = l2;
  return t10;
 }
 throw State.trap();
}

static int f210(State m, long l0, long l1, long l2, long l3) {
 final byte[] b = m.bytes;
 int l4 = 0;
 int l5 = 0;
 int l6 = 0;
 int l7 = 0;
 int l8 = 0;
 int l9 = 0;
 long l10 = 0;
 L1: {
  L2: {
   L3: {
    L4: {
     if (m.g0 < 16L) { break L4; }
     if ((l4 = (l3 == 0L) ? 1 : 0) != 0) { break L2; }
     if ((l5 = (int) b[((int) l2) - 58912]) > -1) { break L2; }
     if (l5 + Integer.MIN_VALUE < 2147483616) { break L2; }
     l6 = l5 & 255;
     l7 = (b[((int) l2) - 58911] & 0xff) & 63;
     l8 = (b[((int) l2) - 58910] & 0xff) & 63;
     L5: {
      L6: {
       if (l5 + Integer.MIN_VALUE > 2147483631) { break L6; }
       l6 = ((l7 << 6) | ((l6 << 12) & 61440)) | l8;
       break L5;
      }
      l6 = ((l8 << 6) | ((l7 << 12) | ((l6 << 18) & 1835008))) | ((b[((int) l2) - 58909] & 0xff) & 63);
     }
     l5 = 0;
     L7: {
      if (l6 > 21312) { break L7; }
      L8: {
       if (l6 > 20490) { break L8; }
       if (l6 == 19975) { break L1; }
       if (l6 == 20010) { break L1; }
       if (l6 != 20159) { break L2; }
       break L1;
      }
      if (l6 == 20491) { break L1; }
      if (l6 == 20998) { break L1; }
      if (l6 != 21051) { break L2; }
      break L1;
     }
     L9: {
      if (l6 > 26177) { break L9; }
      if ((l7 = l6 + -21313) + Integer.MIN_VALUE > -2147483639) { break L3; }
      if (((1 << l7) & 517) == 0) { break L3; }
      break L1;
     }
     L10: {
      if (l6 > 30333) { break L10; }
      if (l6 == 26178) { break L1; }
      if (l6 != 28857) { break L2; }
      break L1;
     }
     if (l6 == 30334) { break L1; }
     if (l6 == 40670) { break L1; }
     break L2;
    }
    throw State.trap();
   }
   if (l6 == 26102) { break L1; }
  }
  l5 = 1;
  if (l1 == 0L) { break L1; }
  if ((l1 = Words.get64(b, ((int) ((l3 = l0 + (l1 * 40L)) + -32L)) - 58912)) == 0L) { break L1; }
  if (((int) b[((int) ((l3 = (l0 = Words.get64(b, ((int) (l3 + -40L)) - 58912)) + l1) + -1L)) - 58912]) > -1) { break L1; }
  l10 = -2L;
  L11: {
   if ((b[((int) (l3 + -2L)) - 58912] & 0xff) + Integer.MIN_VALUE > -2147483457) { break L11; }
   l10 = ((b[((int) (l3 + -3L)) - 58912] & 0xff) + Integer.MIN_VALUE > -2147483457) ? -3L : -4L;
  }
  if ((l6 = (int) b[((int) (l1 = (l0 + l10) + l1)) - 58912]) > -1) { break L1; }
  if (l6 + Integer.MIN_VALUE < 2147483616) { break L1; }
  l7 = l6 & 255;
  l8 = (b[((int) l1) - 58911] & 0xff) & 63;
  l9 = (b[((int) l1) - 58910] & 0xff) & 63;
  L12: {
   L13: {
    if (l6 + Integer.MIN_VALUE > 2147483631) { break L13; }
    l6 = ((l8 << 6) | ((l7 << 12) & 61440)) | l9;
    break L12;
   }
   l6 = ((l9 << 6) | ((l8 << 12) | ((l7 << 18) & 1835008))) | ((b[((int) l1) - 58909] & 0xff) & 63);
  }
  if (l4 != 0) { break L1; }
  if (l6 != 19968) { break L1; }
  L14: {
   if ((l5 = (int) b[((int) l2) - 58912]) > -1) { break L14; }
   if (l5 + Integer.MIN_VALUE < 2147483616) { break L14; }
   l4 = l5 & 255;
   l6 = (b[((int) l2) - 58911] & 0xff) & 63;
   l7 = (b[((int) l2) - 58910] & 0xff) & 63;
   L15: {
    L16: {
     if (l5 + Integer.MIN_VALUE > 2147483631) { break L16; }
     l4 = ((l6 << 6) | ((l4 << 12) & 61440)) | l7;
     break L15;
    }
    l4 = ((l7 << 6) | ((l6 << 12) | ((l4 << 18) & 1835008))) | ((b[((int) l2) - 58909] & 0xff) & 63);
   }
   l5 = 0;
   L17: {
    if (l4 > 26678) { break L17; }
    if (l4 == 19979) { break L1; }
    if (l4 == 20123) { break L1; }
    if (l4 != 23450) { break L14; }
    break L1;
   }
   L18: {
    if (l4 > 30451) { break L18; }
    if (l4 == 26679) { break L1; }
    if (l4 != 27171) { break L14; }
    break L1;
   }
   if (l4 == 30452) { break L1; }
   if (l4 == 36215) { break L1; }
  }
  l5 = 1;
 }
 return l5;
}

static int f211(State m, long l0, long l1, long l2, long l3) {
 final byte[] b = m.bytes;
 long l4 = 0;
 long l5 = 0;
 long l6 = 0;
 long l7 = 0;
 long l8 = 0;
 long l9 = 0;
 long l10 = 0;
 long l11 = 0;
 int l12 = 0;
 int l13 = 0;
 int l14 = 0;
 int l15 = 0;
 int l16 = 0;
 int l17 = 0;
 m.g0 = l4 = m.g0 - 32L;
 L1: {
  if ((l5 = l4) < 16L) { break L1; }
  L2: while (true) {
   l1 = l1 + -1L;
   l0 = (l4 = l0) + 16L;
   l6 = Words.get64(b, ((int) (l4 + 8L)) - 58912);
   l7 = Words.get64(b, ((int) l4) - 58912);
   l8 = l2;
   l9 = l3;
   L3: {
    L4: while (true) {
     if ((l12 = (l6 == 0L) ? 1 : 0) != 0) { break L3; }
     l14 = (l13 = (int) b[((int) l7) - 58912]) & 255;
     l10 = 1L;
     L5: {
      if (l13 > -1) { break L5; }
      l15 = (b[((int) l7) - 58911] & 0xff) & 63;
      L6: {
       if (l13 + Integer.MIN_VALUE > 2147483615) { break L6; }
       l14 = ((l14 << 6) & 1984) | l15;
       l10 = 2L;
       break L5;
      }
      l16 = (b[((int) l7) - 58910] & 0xff) & 63;
      L7: {
       if (l13 + Integer.MIN_VALUE > 2147483631) { break L7; }
       l14 = ((l15 << 6) | ((l14 << 12) & 61440)) | l16;
       l10 = 3L;
       break L5;
      }
      l14 = ((l16 << 6) | ((l15 << 12) | ((l14 << 18) & 1835008))) | ((b[((int) l7) - 58909] & 0xff) & 63);
      l10 = 4L;
     }
     L8: {
      if (l9 == 0L) { break L8; }
      l15 = (l13 = (int) b[((int) l8) - 58912]) & 255;
      l11 = 1L;
      L9: {
       if (l13 > -1) { break L9; }
       l16 = (b[((int) l8) - 58911] & 0xff) & 63;
       L10: {
        if (l13 + Integer.MIN_VALUE > 2147483615) { break L10; }
        l15 = ((l15 << 6) & 1984) | l16;
        l11 = 2L;
        break L9;
       }
       l17 = (b[((int) l8) - 58910] & 0xff) & 63;
       L11: {
        if (l13 + Integer.MIN_VALUE > 2147483631) { break L11; }
        l15 = ((l16 << 6) | ((l15 << 12) & 61440)) | l17;
        l11 = 3L;
        break L9;
       }
       l15 = ((l17 << 6) | ((l16 << 12) | ((l15 << 18) & 1835008))) | ((b[((int) l8) - 58909] & 0xff) & 63);
       l11 = 4L;
      }
      l17 = 1;
      l16 = 1;
      L12: {
       if (l14 == 24186) { break L12; }
       l4 = -44L;
       L13: {
        L14: while (true) {
         if ((l16 = Words.get32(b, ((int) (l4 + 87508L)) - 58912)) == l14) { break L13; }
         l13 = (l4 != 0L) ? 1 : 0;
         l4 = l4 + 4L;
         if (l13 != 0) { continue L14; }
         break L14;
        }
       }
       L15: {
        L16: {
         if (l16 != l14) { break L16; }
         Core2.f63(m, l5 + 16L, l14);
         l13 = b[((int) l5) - 58895] & 0xff;
         l14 = b[((int) l5) - 58896] & 0xff;
         break L15;
        }
        Core1.f24(m, l5 + 24L, l14);
        l13 = b[((int) l5) - 58887] & 0xff;
        l14 = b[((int) l5) - 58888] & 0xff;
       }
       l16 = ((l14 & 255) == 1) ? l13 : 0;
      }
      L17: {
       if (l15 == 24186) { break L17; }
       l4 = -44L;
       L18: {
        L19: while (true) {
         if ((l14 = Words.get32(b, ((int) (l4 + 87508L)) - 58912)) == l15) { break L18; }
         l13 = (l4 != 0L) ? 1 : 0;
         l4 = l4 + 4L;
         if (l13 != 0) { continue L19; }
         break L19;
        }
       }
       L20: {
        L21: {
         if (l14 != l15) { break L21; }
         Core2.f63(m, l5, l15);
         l13 = b[((int) l5) - 58911] & 0xff;
         l14 = b[((int) l5) - 58912] & 0xff;
         break L20;
        }
        Core1.f24(m, l5 + 8L, l15);
        l13 = b[((int) l5) - 58903] & 0xff;
        l14 = b[((int) l5) - 58904] & 0xff;
       }
       l17 = ((l14 & 255) == 1) ? l13 : 0;
      }
      l6 = l6 - l10;
      l7 = l7 + l10;
      l9 = l9 - l11;
      l8 = l8 + l11;
      if ((l16 & 255) == (l17 & 255)) { continue L4; }
     }
     break L4;
    }
    if (l1 != 0L) { continue L2; }
   }
   break L2;
  }
  m.g0 = l5 + 32L;
  final int t22 = l12;
  return t22;
 }
 throw State.trap();
}

static int f212(State m, long l0, long l1) {
 final byte[] b = m.bytes;
 long l2 = 0;
 int l3 = 0;
 int l4 = 0;
 int l5 = 0;
 int l6 = 0;
 int l7 = 0;
 m.g0 = l2 = m.g0 - 16L;
 L1: {
  if ((l2 = l2) < 16L) { break L1; }
  l3 = 0;
  L2: {
   if (l1 == 0L) { break L2; }
   l5 = (l4 = (int) b[((int) l0) - 58912]) & 255;
   L3: {
    if (l4 > -1) { break L3; }
    l6 = (b[((int) l0) - 58911] & 0xff) & 63;
    L4: {
     if (l4 + Integer.MIN_VALUE > 2147483615) { break L4; }
     l5 = ((l5 << 6) & 1984) | l6;
     break L3;
    }
    l7 = (b[((int) l0) - 58910] & 0xff) & 63;
    L5: {
     L6: {
      if (l4 + Integer.MIN_VALUE > 2147483631) { break L6; }
      l5 = ((l6 << 6) | ((l5 << 12) & 61440)) | l7;
      break L5;
     }
     l5 = ((l7 << 6) | ((l6 << 12) | ((l5 << 18) & 1835008))) | ((b[((int) l0) - 58909] & 0xff) & 63);
    }
    if (l5 == 24186) { break L2; }
   }
   l0 = -44L;
   L7: {
    L8: while (true) {
     if ((l4 = Words.get32(b, ((int) (l0 + 87508L)) - 58912)) == l5) { break L7; }
     l3 = (l0 != 0L) ? 1 : 0;
     l0 = l0 + 4L;
     if (l3 != 0) { continue L8; }
     break L8;
    }
   }
   L9: {
    L10: {
     if (l4 != l5) { break L10; }
     Core2.f63(m, l2, l5);
     l3 = b[((int) l2) - 58911] & 0xff;
     l5 = b[((int) l2) - 58912] & 0xff;
     break L9;
    }
    Core1.f24(m, l2 + 8L, l5);
    l3 = b[((int) l2) - 58903] & 0xff;
    l5 = b[((int) l2) - 58904] & 0xff;
   }
   l3 = (((l5 & 255) != 1) | ((l3 & 255) == 0)) ? 1 : 0;
  }
  m.g0 = l2 + 16L;
  final int t11 = l3;
  return t11;
 }
 throw State.trap();
}

static int f213(State m, long l0, long l1) {
 final byte[] b = m.bytes;
 long l2 = 0;
 long l3 = 0;
 long l4 = 0;
 int l5 = 0;
 int l6 = 0;
 int l7 = 0;
 int l8 = 0;
 int l9 = 0;
 int l10 = 0;
 m.g0 = l2 = m.g0 - 32L;
 L1: {
  L2: {
   L3: {
    L4: {
     L5: {
      if ((l2 = l2) < 16L) { break L5; }
      l3 = 0L;
      if (l1 == 0L) { break L1; }
      l6 = l5 = (int) b[((int) ((l4 = l0 + l1) + -1L)) - 58912];
      L6: {
       if (l5 >= 0) { break L6; }
       l3 = -2L;
       L7: {
        if ((l7 = b[((int) (l4 + -2L)) - 58912] & 0xff) + Integer.MIN_VALUE > -2147483457) { break L7; }
        l3 = ((b[((int) (l4 + -3L)) - 58912] & 0xff) + Integer.MIN_VALUE > -2147483457) ? -3L : -4L;
       }
       l6 = (l8 = (int) b[((int) (l3 = (l0 + l3) + l1)) - 58912]) & 255;
       if (l8 > -1) { break L6; }
       l9 = (b[((int) l3) - 58911] & 0xff) & 63;
       L8: {
        if (l8 + Integer.MIN_VALUE > 2147483615) { break L8; }
        l6 = ((l6 << 6) & 1984) | l9;
        break L6;
       }
       l10 = (b[((int) l3) - 58910] & 0xff) & 63;
       L9: {
        L10: {
         if (l8 + Integer.MIN_VALUE > 2147483631) { break L10; }
         l6 = ((l9 << 6) | ((l6 << 12) & 61440)) | l10;
         break L9;
        }
        l6 = ((l10 << 6) | ((l9 << 12) | ((l6 << 18) & 1835008))) | ((b[((int) l3) - 58909] & 0xff) & 63);
       }
       if (l6 == 65306) { break L2; }
      }
      if (l6 + Integer.MIN_VALUE > -2147483589) { break L4; }
      if (((1L << (l6 & 0xffffffffL)) & 864691132750102528L) == 0L) { break L4; }
      break L3;
     }
     throw State.trap();
    }
    if (l6 == 65307) { break L3; }
    l3 = l1;
    break L1;
   }
   L11: {
    if (l5 <= -1) { break L11; }
    l3 = l1 + -1L;
    break L1;
   }
   l7 = b[((int) (l4 + -2L)) - 58912] & 0xff;
  }
  l3 = -2L;
  L12: {
   if ((l7 & 255) + Integer.MIN_VALUE > -2147483457) { break L12; }
   l3 = ((b[((int) (l4 + -3L)) - 58912] & 0xff) + Integer.MIN_VALUE > -2147483457) ? -3L : -4L;
  }
  l3 = l3 + l1;
 }
 Words.put64(b, ((int) l2) - 58888, 0L);
 Words.put64(b, ((int) l2) - 58896, 0L);
 Words.put64(b, ((int) l2) - 58904, 0L);
 Core6.f204(m, l2 + 8L, 89480L, 9L, l0, l3);
 L13: {
  L14: {
   if ((b[((int) l2) - 58904] & 0xff) == 1) { break L14; }
   Core6.f204(m, l2 + 8L, 89489L, 9L, l0, l3);
   if ((b[((int) l2) - 58904] & 0xff) == 1) { break L14; }
   Core6.f204(m, l2 + 8L, 89498L, 6L, l0, l3);
   if ((b[((int) l2) - 58904] & 0xff) == 1) { break L14; }
   Core6.f204(m, l2 + 8L, 89504L, 6L, l0, l3);
   if ((b[((int) l2) - 58904] & 0xff) == 1) { break L14; }
   Core6.f204(m, l2 + 8L, 89510L, 6L, l0, l3);
   if ((b[((int) l2) - 58904] & 0xff) == 1) { break L14; }
   Core6.f204(m, l2 + 8L, 89516L, 6L, l0, l3);
   if ((b[((int) l2) - 58904] & 0xff) == 1) { break L14; }
   Core6.f204(m, l2 + 8L, 89522L, 3L, l0, l3);
   if ((b[((int) l2) - 58904] & 0xff) == 1) { break L14; }
   Core6.f204(m, l2 + 8L, 89525L, 3L, l0, l3);
   if ((b[((int) l2) - 58904] & 0xff) == 1) { break L14; }
   Core6.f204(m, l2 + 8L, 89528L, 3L, l0, l3);
   if ((b[((int) l2) - 58904] & 0xff) != 1) { break L13; }
  }
  l3 = Words.get64(b, ((int) l2) - 58888);
  l0 = Words.get64(b, ((int) l2) - 58896);
 }
 l1 = -1616L;
 L15: {
  L16: while (true) {
   if ((l4 = l1 + 16L) == 0L) { break L15; }
   Words.put64(b, ((int) l2) - 58888, 0L);
   Words.put64(b, ((int) l2) - 58896, 0L);
   Words.put64(b, ((int) l2) - 58904, 0L);
   Core6.f204(m, l2 + 8L, Words.get64(b, ((int) (l1 + 91152L)) - 58912), Words.get64(b, ((int) (l1 + 91160L)) - 58912), l0, l3);
   l1 = l4;
   if ((b[((int) l2) - 58904] & 0xff) != 1) { continue L16; }
   break L16;
  }
 }
 m.g0 = l2 + 32L;
 return (l4 != 0L) ? 1 : 0;
}

static int f214(State m, long l0, long l1) {
 final byte[] b = m.bytes;
 long l2 = 0;
 long l3 = 0;
 long l4 = 0;
 long l5 = 0;
 int l6 = 0;
 int l7 = 0;
 int l8 = 0;
 int l9 = 0;
 int l10 = 0;
 L1: {
  L2: {
   L3: {
    L4: {
     if ((l2 = m.g0) < 16L) { break L4; }
     l6 = 0;
     if (l1 == 0L) { break L1; }
     L5: {
      L6: {
       L7: {
        if ((l7 = (int) b[((int) ((l3 = l0 + l1) + -1L)) - 58912]) > -1) { break L7; }
        l4 = -2L;
        L8: {
         if ((b[((int) (l3 + -2L)) - 58912] & 0xff) + Integer.MIN_VALUE > -2147483457) { break L8; }
         l4 = ((b[((int) (l3 + -3L)) - 58912] & 0xff) + Integer.MIN_VALUE > -2147483457) ? -3L : -4L;
        }
        l7 = (l8 = (int) b[((int) (l4 = (l0 + l4) + l1)) - 58912]) & 255;
        L9: {
         if (l8 > -1) { break L9; }
         l9 = (b[((int) l4) - 58911] & 0xff) & 63;
         L10: {
          if (l8 + Integer.MIN_VALUE > 2147483615) { break L10; }
          l7 = ((l7 << 6) & 1984) | l9;
          break L9;
         }
         l10 = (b[((int) l4) - 58910] & 0xff) & 63;
         L11: {
          if (l8 + Integer.MIN_VALUE > 2147483631) { break L11; }
          l7 = ((l9 << 6) | ((l7 << 12) & 61440)) | l10;
          break L9;
         }
         l7 = ((l10 << 6) | ((l9 << 12) | ((l7 << 18) & 1835008))) | ((b[((int) l4) - 58909] & 0xff) & 63);
        }
        if ((l7 + -65) + Integer.MIN_VALUE >= -2147483622) { break L1; }
        l4 = -2L;
        L12: {
         if ((b[((int) (l3 + -2L)) - 58912] & 0xff) + Integer.MIN_VALUE > -2147483457) { break L12; }
         l4 = ((b[((int) (l3 + -3L)) - 58912] & 0xff) + Integer.MIN_VALUE > -2147483457) ? -3L : -4L;
        }
        l7 = (l8 = (int) b[((int) (l4 = l0 + (l3 = l4 + l1))) - 58912]) & 255;
        if (l8 > -1) { break L5; }
        l9 = (b[((int) l4) - 58911] & 0xff) & 63;
        if (l8 + Integer.MIN_VALUE > 2147483615) { break L6; }
        l7 = ((l7 << 6) & 1984) | l9;
        break L5;
       }
       if (((l7 + -65) & 255) + Integer.MIN_VALUE >= -2147483622) { break L1; }
       l3 = l1 + -1L;
       break L5;
      }
      l10 = (b[((int) l4) - 58910] & 0xff) & 63;
      L13: {
       if (l8 + Integer.MIN_VALUE > 2147483631) { break L13; }
       l7 = ((l9 << 6) | ((l7 << 12) & 61440)) | l10;
       break L5;
      }
      l7 = ((l10 << 6) | ((l9 << 12) | ((l7 << 18) & 1835008))) | ((b[((int) l4) - 58909] & 0xff) & 63);
     }
     if ((l7 + -91) + Integer.MIN_VALUE < 2147483622) { break L2; }
     if (l3 != 0L) { break L3; }
     break L2;
    }
    throw State.trap();
   }
   L14: {
    if ((l7 = (int) b[((int) (l0 + (l4 = l3 + -1L))) - 58912]) > -1) { break L14; }
    l4 = -2L;
    L15: {
     if ((b[((int) ((l5 = l0 + l3) + -2L)) - 58912] & 0xff) + Integer.MIN_VALUE > -2147483457) { break L15; }
     l4 = ((b[((int) (l5 + -3L)) - 58912] & 0xff) + Integer.MIN_VALUE > -2147483457) ? -3L : -4L;
    }
    l7 = (l8 = (int) b[((int) (l3 = l0 + (l4 = l4 + l3))) - 58912]) & 255;
    if (l8 > -1) { break L14; }
    l9 = (b[((int) l3) - 58911] & 0xff) & 63;
    L16: {
     if (l8 + Integer.MIN_VALUE < 2147483616) { break L16; }
     l10 = (b[((int) l3) - 58910] & 0xff) & 63;
     L17: {
      if (l8 + Integer.MIN_VALUE < 2147483632) { break L17; }
      l7 = ((l10 << 6) | ((l9 << 12) | ((l7 << 18) & 1835008))) | ((b[((int) l3) - 58909] & 0xff) & 63);
      break L14;
     }
     l7 = ((l9 << 6) | ((l7 << 12) & 61440)) | l10;
     break L14;
    }
    l7 = ((l7 << 6) & 1984) | l9;
   }
   if ((l7 + -91) + Integer.MIN_VALUE < 2147483622) { break L2; }
   if (l4 == 0L) { break L2; }
   L18: {
    if ((l7 = (int) b[((int) (l0 + (l3 = l4 + -1L))) - 58912]) > -1) { break L18; }
    l3 = -2L;
    L19: {
     if ((b[((int) ((l5 = l0 + l4) + -2L)) - 58912] & 0xff) + Integer.MIN_VALUE > -2147483457) { break L19; }
     l3 = ((b[((int) (l5 + -3L)) - 58912] & 0xff) + Integer.MIN_VALUE > -2147483457) ? -3L : -4L;
    }
    l7 = (l8 = (int) b[((int) (l4 = l0 + (l3 = l3 + l4))) - 58912]) & 255;
    if (l8 > -1) { break L18; }
    l9 = (b[((int) l4) - 58911] & 0xff) & 63;
    L20: {
     if (l8 + Integer.MIN_VALUE < 2147483616) { break L20; }
     l10 = (b[((int) l4) - 58910] & 0xff) & 63;
     L21: {
      if (l8 + Integer.MIN_VALUE < 2147483632) { break L21; }
      l7 = ((l10 << 6) | ((l9 << 12) | ((l7 << 18) & 1835008))) | ((b[((int) l4) - 58909] & 0xff) & 63);
      break L18;
     }
     l7 = ((l9 << 6) | ((l7 << 12) & 61440)) | l10;
     break L18;
    }
    l7 = ((l7 << 6) & 1984) | l9;
   }
   if ((l7 + -91) + Integer.MIN_VALUE < 2147483622) { break L2; }
   if (l3 == 0L) { break L2; }
   L22: {
    if ((l7 = (int) b[((int) ((l4 = l0 + l3) + -1L)) - 58912]) > -1) { break L22; }
    l5 = -2L;
    L23: {
     if ((b[((int) (l4 + -2L)) - 58912] & 0xff) + Integer.MIN_VALUE > -2147483457) { break L23; }
     l5 = ((b[((int) (l4 + -3L)) - 58912] & 0xff) + Integer.MIN_VALUE > -2147483457) ? -3L : -4L;
    }
    l7 = (l8 = (int) b[((int) (l3 = (l0 + l5) + l3)) - 58912]) & 255;
    if (l8 > -1) { break L22; }
    l9 = (b[((int) l3) - 58911] & 0xff) & 63;
    L24: {
     if (l8 + Integer.MIN_VALUE < 2147483616) { break L24; }
     l10 = (b[((int) l3) - 58910] & 0xff) & 63;
     L25: {
      if (l8 + Integer.MIN_VALUE < 2147483632) { break L25; }
      l7 = ((l10 << 6) | ((l9 << 12) | ((l7 << 18) & 1835008))) | ((b[((int) l3) - 58909] & 0xff) & 63);
      break L22;
     }
     l7 = ((l9 << 6) | ((l7 << 12) & 61440)) | l10;
     break L22;
    }
    l7 = ((l7 << 6) & 1984) | l9;
   }
   if ((l7 + -65) + Integer.MIN_VALUE < -2147483622) { break L1; }
  }
  L26: {
   L27: while (true) {
    if ((l3 = l1) == 0L) { break L26; }
    L28: {
     if ((l6 = (int) b[((int) (l0 + (l1 = l3 + -1L))) - 58912]) >= 0) { break L28; }
     l1 = -2L;
     L29: {
      if ((b[((int) ((l4 = l0 + l3) + -2L)) - 58912] & 0xff) + Integer.MIN_VALUE > -2147483457) { break L29; }
      l1 = ((b[((int) (l4 + -3L)) - 58912] & 0xff) + Integer.MIN_VALUE > -2147483457) ? -3L : -4L;
     }
     l6 = (l7 = (int) b[((int) (l4 = l0 + (l1 = l1 + l3))) - 58912]) & 255;
     if (l7 > -1) { break L28; }
     l8 = (b[((int) l4) - 58911] & 0xff) & 63;
     L30: {
      if (l7 + Integer.MIN_VALUE > 2147483615) { break L30; }
      l6 = ((l6 << 6) & 1984) | l8;
      break L28;
     }
     l9 = (b[((int) l4) - 58910] & 0xff) & 63;
     L31: {
      if (l7 + Integer.MIN_VALUE > 2147483631) { break L31; }
      l6 = ((l8 << 6) | ((l6 << 12) & 61440)) | l9;
      break L28;
     }
     l6 = ((l9 << 6) | ((l8 << 12) | ((l6 << 18) & 1835008))) | ((b[((int) l4) - 58909] & 0xff) & 63);
    }
    if ((l6 + -65) + Integer.MIN_VALUE < -2147483622) { continue L27; }
    break L27;
   }
  }
  l6 = Core6.f195(m, l0, l3) ^ 1;
 }
 m.g0 = l2;
 return l6;
}

static int f215(State m, long l0, long l1) {
 final byte[] b = m.bytes;
 long l2 = 0;
 long l3 = 0;
 int l4 = 0;
 int l5 = 0;
 int l6 = 0;
 int l7 = 0;
 int l8 = 0;
 L1: {
  L2: {
   L3: {
    L4: {
     if ((l2 = m.g0) < 16L) { break L4; }
     l4 = 0;
     if (l1 == 0L) { break L1; }
     l6 = (l5 = (int) b[((int) l0) - 58912]) & 255;
     L5: {
      L6: {
       L7: {
        L8: {
         if (l5 > -1) { break L8; }
         l7 = (b[((int) l0) - 58911] & 0xff) & 63;
         L9: {
          if (l5 + Integer.MIN_VALUE < 2147483616) { break L9; }
          l8 = (b[((int) l0) - 58910] & 0xff) & 63;
          L10: {
           L11: {
            if (l5 + Integer.MIN_VALUE > 2147483631) { break L11; }
            l7 = ((l7 << 6) | ((l6 << 12) & 61440)) | l8;
            break L10;
           }
           l7 = ((l8 << 6) | ((l7 << 12) | ((l6 << 18) & 1835008))) | ((b[((int) l0) - 58909] & 0xff) & 63);
          }
          if (l7 == 32) { break L7; }
          l4 = (b[((int) l0) - 58911] & 0xff) & 63;
          break L3;
         }
         L12: {
          if ((((l6 << 6) & 1984) | l7) != 32) { break L12; }
          l3 = 2L;
          break L6;
         }
         l4 = (b[((int) l0) - 58911] & 0xff) & 63;
         break L5;
        }
        if (l5 != 32) { break L2; }
        l3 = 1L;
        break L6;
       }
       l3 = (l5 + Integer.MIN_VALUE < 2147483632) ? 3L : 4L;
      }
      if (l1 == l3) { break L1; }
      l6 = (l5 = (int) b[((int) (l0 = l0 + l3)) - 58912]) & 255;
      if (l5 > -1) { break L2; }
      l4 = (b[((int) l0) - 58911] & 0xff) & 63;
      if (l5 + Integer.MIN_VALUE > 2147483615) { break L3; }
     }
     l6 = ((l6 << 6) & 1984) | l4;
     break L2;
    }
    throw State.trap();
   }
   l7 = (b[((int) l0) - 58910] & 0xff) & 63;
   L13: {
    if (l5 + Integer.MIN_VALUE > 2147483631) { break L13; }
    l6 = ((l4 << 6) | ((l6 << 12) & 61440)) | l7;
    break L2;
   }
   l6 = ((l7 << 6) | ((l4 << 12) | ((l6 << 18) & 1835008))) | ((b[((int) l0) - 58909] & 0xff) & 63);
  }
  l4 = Core6.f189(m, l6);
 }
 m.g0 = l2;
 return l4;
}

static int f216(State m, long l0, long l1) {
 final byte[] b = m.bytes;
 long l2 = 0;
 long l3 = 0;
 long l4 = 0;
 long l5 = 0;
 int l6 = 0;
 int l7 = 0;
 L1: {
  if ((l2 = m.g0) < 16L) { break L1; }
  l6 = 0;
  L2: {
   if (l1 == 0L) { break L2; }
   L3: {
    L4: {
     if ((l7 = (int) b[((int) l0) - 58912]) <= -1) { break L4; }
     l3 = 1L;
     break L3;
    }
    L5: {
     if (l7 + Integer.MIN_VALUE >= 2147483616) { break L5; }
     l3 = 2L;
     break L3;
    }
    l3 = (l7 + Integer.MIN_VALUE < 2147483632) ? 3L : 4L;
   }
   if (l1 == l3) { break L2; }
   L6: {
    L7: {
     if ((l7 = (int) b[((int) (l4 = l0 + l3)) - 58912]) <= -1) { break L7; }
     l5 = 1L;
     break L6;
    }
    L8: {
     if (l7 + Integer.MIN_VALUE >= 2147483616) { break L8; }
     l5 = 2L;
     break L6;
    }
    l5 = (l7 + Integer.MIN_VALUE < 2147483632) ? 3L : 4L;
   }
   if (l1 == (l3 = l3 + l5)) { break L2; }
   L9: {
    L10: {
     if ((l7 = (int) b[((int) (l4 = l4 + l5)) - 58912]) <= -1) { break L10; }
     l5 = 1L;
     break L9;
    }
    L11: {
     if (l7 + Integer.MIN_VALUE >= 2147483616) { break L11; }
     l5 = 2L;
     break L9;
    }
    l5 = (l7 + Integer.MIN_VALUE < 2147483632) ? 3L : 4L;
   }
   if (l1 == (l3 = l3 + l5)) { break L2; }
   L12: {
    L13: {
     if ((l7 = (int) b[((int) (l4 = l4 + l5)) - 58912]) <= -1) { break L13; }
     l5 = 1L;
     break L12;
    }
    L14: {
     if (l7 + Integer.MIN_VALUE >= 2147483616) { break L14; }
     l5 = 2L;
     break L12;
    }
    l5 = (l7 + Integer.MIN_VALUE < 2147483632) ? 3L : 4L;
   }
   if (l1 == (l3 = l3 + l5)) { break L2; }
   L15: {
    L16: {
     if ((l7 = (int) b[((int) (l4 = l4 + l5)) - 58912]) <= -1) { break L16; }
     l5 = 1L;
     break L15;
    }
    L17: {
     if (l7 + Integer.MIN_VALUE >= 2147483616) { break L17; }
     l5 = 2L;
     break L15;
    }
    l5 = (l7 + Integer.MIN_VALUE < 2147483632) ? 3L : 4L;
   }
   if (l1 == (l3 = l3 + l5)) { break L2; }
   L18: {
    L19: {
     if ((l7 = (int) b[((int) (l4 = l4 + l5)) - 58912]) <= -1) { break L19; }
     l5 = 1L;
     break L18;
    }
    L20: {
     if (l7 + Integer.MIN_VALUE >= 2147483616) { break L20; }
     l5 = 2L;
     break L18;
    }
    l5 = (l7 + Integer.MIN_VALUE < 2147483632) ? 3L : 4L;
   }
   if (l1 == (l3 = l3 + l5)) { break L2; }
   L21: {
    L22: {
     if ((l7 = (int) b[((int) (l4 = l4 + l5)) - 58912]) <= -1) { break L22; }
     l5 = 1L;
     break L21;
    }
    L23: {
     if (l7 + Integer.MIN_VALUE >= 2147483616) { break L23; }
     l5 = 2L;
     break L21;
    }
    l5 = (l7 + Integer.MIN_VALUE < 2147483632) ? 3L : 4L;
   }
   if (l1 == (l3 = l3 + l5)) { break L2; }
   L24: {
    L25: {
     if ((l7 = (int) b[((int) (l4 = l4 + l5)) - 58912]) <= -1) { break L25; }
     l5 = 1L;
     break L24;
    }
    L26: {
     if (l7 + Integer.MIN_VALUE >= 2147483616) { break L26; }
     l5 = 2L;
     break L24;
    }
    l5 = (l7 + Integer.MIN_VALUE < 2147483632) ? 3L : 4L;
   }
   if (l1 == (l3 = l3 + l5)) { break L2; }
   L27: {
    L28: {
     if ((l7 = (int) b[((int) (l4 = l4 + l5)) - 58912]) <= -1) { break L28; }
     l5 = 1L;
     break L27;
    }
    L29: {
     if (l7 + Integer.MIN_VALUE >= 2147483616) { break L29; }
     l5 = 2L;
     break L27;
    }
    l5 = (l7 + Integer.MIN_VALUE < 2147483632) ? 3L : 4L;
   }
   if (l1 == (l3 = l3 + l5)) { break L2; }
   L30: {
    L31: {
     if ((l7 = (int) b[((int) (l4 = l4 + l5)) - 58912]) <= -1) { break L31; }
     l5 = 1L;
     break L30;
    }
    L32: {
     if (l7 + Integer.MIN_VALUE >= 2147483616) { break L32; }
     l5 = 2L;
     break L30;
    }
    l5 = (l7 + Integer.MIN_VALUE < 2147483632) ? 3L : 4L;
   }
   if (l1 == (l3 = l3 + l5)) { break L2; }
   L33: {
    L34: {
     if ((l7 = (int) b[((int) (l4 + l5)) - 58912]) <= -1) { break L34; }
     l5 = 1L;
     break L33;
    }
    L35: {
     if (l7 + Integer.MIN_VALUE >= 2147483616) { break L35; }
     l5 = 2L;
     break L33;
    }
    l5 = (l7 + Integer.MIN_VALUE < 2147483632) ? 3L : 4L;
   }
   if (l1 != (l3 + l5)) { break L2; }
   l6 = f211(m, 89168L, 7L, l0, l1);
  }
  m.g0 = l2;
  final int t36 = l6;
  return t36;
 }
 throw State.trap();
}

static int f217(State m, long l0, long l1, long l2, long l3) {
 final byte[] b = m.bytes;
 long l4 = 0;
 long l5 = 0;
 long l6 = 0;
 int l7 = 0;
 int l8 = 0;
 int l9 = 0;
 int l10 = 0;
 int l11 = 0;
 m.g0 = l4 = m.g0 - 32L;
 L1: {
  if ((l4 = l4) < 16L) { break L1; }
  L2: {
   L3: {
    L4: {
     if (l1 == 0L) { break L4; }
     if (((int) b[((int) ((l5 = l0 + l1) + -1L)) - 58912]) > -1) { break L4; }
     l6 = -2L;
     L5: {
      if ((b[((int) (l5 + -2L)) - 58912] & 0xff) + Integer.MIN_VALUE > -2147483457) { break L5; }
      l6 = ((b[((int) (l5 + -3L)) - 58912] & 0xff) + Integer.MIN_VALUE > -2147483457) ? -3L : -4L;
     }
     if ((l7 = (int) b[((int) (l5 = (l0 + l6) + l1)) - 58912]) > -1) { break L4; }
     if (l7 + Integer.MIN_VALUE < 2147483616) { break L4; }
     l8 = l7 & 255;
     l9 = (b[((int) l5) - 58911] & 0xff) & 63;
     l10 = (b[((int) l5) - 58910] & 0xff) & 63;
     L6: {
      L7: {
       if (l7 + Integer.MIN_VALUE > 2147483631) { break L7; }
       l7 = ((l9 << 6) | ((l8 << 12) & 61440)) | l10;
       break L6;
      }
      l7 = ((l10 << 6) | ((l9 << 12) | ((l8 << 18) & 1835008))) | ((b[((int) l5) - 58909] & 0xff) & 63);
     }
     L8: {
      if (l7 > 26846) { break L8; }
      if (l7 == 24162) { break L3; }
      if (l7 == 24231) { break L3; }
      if (l7 != 26635) { break L4; }
      break L3;
     }
     if (l7 == 26847) { break L3; }
     if (l7 == 27004) { break L3; }
     if (l7 == 27155) { break L3; }
    }
    Words.put64(b, ((int) l4) - 58888, 0L);
    Words.put64(b, ((int) l4) - 58896, 0L);
    Words.put64(b, ((int) l4) - 58904, 0L);
    Core6.f204(m, l4 + 8L, 92208L, 6L, l0, l1);
    if ((b[((int) l4) - 58904] & 0xff) == 1) { break L3; }
    Words.put64(b, ((int) l4) - 58888, 0L);
    Words.put64(b, ((int) l4) - 58896, 0L);
    Words.put64(b, ((int) l4) - 58904, 0L);
    Core6.f204(m, l4 + 8L, 92214L, 6L, l0, l1);
    if ((b[((int) l4) - 58904] & 0xff) == 1) { break L3; }
    Words.put64(b, ((int) l4) - 58888, 0L);
    Words.put64(b, ((int) l4) - 58896, 0L);
    Words.put64(b, ((int) l4) - 58904, 0L);
    Core6.f204(m, l4 + 8L, 92220L, 6L, l0, l1);
    l7 = 0;
    if ((b[((int) l4) - 58904] & 0xff) != 1) { break L2; }
   }
   l7 = 0;
   if (f215(m, l2, l3) != 0) { break L2; }
   L9: {
    if (l3 == 0L) { break L9; }
    if ((l8 = (int) b[((int) l2) - 58912]) > -1) { break L9; }
    if (l8 + Integer.MIN_VALUE < 2147483616) { break L9; }
    l9 = l8 & 255;
    l10 = (b[((int) l2) - 58911] & 0xff) & 63;
    l11 = (b[((int) l2) - 58910] & 0xff) & 63;
    L10: {
     L11: {
      if (l8 + Integer.MIN_VALUE > 2147483631) { break L11; }
      l8 = ((l10 << 6) | ((l9 << 12) & 61440)) | l11;
      break L10;
     }
     l8 = ((l11 << 6) | ((l10 << 12) | ((l9 << 18) & 1835008))) | ((b[((int) l2) - 58909] & 0xff) & 63);
    }
    L12: {
     if (l8 > 22809) { break L12; }
     if (l8 == 20313) { break L2; }
     if (l8 != 20358) { break L9; }
     break L2;
    }
    if (l8 == 22810) { break L2; }
    if (l8 == 26469) { break L2; }
    if (l8 == 39192) { break L2; }
   }
   l7 = 1;
  }
  m.g0 = l4 + 32L;
  final int t13 = l7;
  return t13;
 }
 throw State.trap();
}

static int f218(State m, long l0, long l1, long l2, long l3) {
 final byte[] b = m.bytes;
 long l4 = 0;
 int l5 = 0;
 int l6 = 0;
 int l7 = 0;
 int l8 = 0;
 int l9 = 0;
 m.g0 = l4 = m.g0 - 32L;
 L1: {
  if ((l4 = l4) < 16L) { break L1; }
  Words.put64(b, ((int) l4) - 58888, 0L);
  Words.put64(b, ((int) l4) - 58896, 0L);
  Words.put64(b, ((int) l4) - 58904, 0L);
  Core6.f197(m, l4 + 8L, 93544L, 9L, l2, l3);
  l5 = 1;
  L2: {
   if ((b[((int) l4) - 58904] & 0xff) == 1) { break L2; }
   Words.put64(b, ((int) l4) - 58888, 0L);
   Words.put64(b, ((int) l4) - 58896, 0L);
   Words.put64(b, ((int) l4) - 58904, 0L);
   Core6.f197(m, l4 + 8L, 93553L, 9L, l2, l3);
   l5 = 1;
   if ((b[((int) l4) - 58904] & 0xff) == 1) { break L2; }
   l3 = 0L;
   L3: {
    if (l1 == 0L) { break L3; }
    L4: {
     if (((int) b[((int) ((l3 = l0 + l1) + -1L)) - 58912]) <= -1) { break L4; }
     l3 = l1;
     break L3;
    }
    l2 = -2L;
    L5: {
     if ((l6 = b[((int) (l3 + -2L)) - 58912] & 0xff) + Integer.MIN_VALUE > -2147483457) { break L5; }
     l2 = ((b[((int) (l3 + -3L)) - 58912] & 0xff) + Integer.MIN_VALUE > -2147483457) ? -3L : -4L;
    }
    L6: {
     if ((l5 = (int) b[((int) (l2 = (l0 + l2) + l1)) - 58912]) <= -1) { break L6; }
     l3 = l1;
     break L3;
    }
    L7: {
     if (l5 + Integer.MIN_VALUE >= 2147483616) { break L7; }
     l3 = l1;
     break L3;
    }
    l7 = l5 & 255;
    l8 = (b[((int) l2) - 58911] & 0xff) & 63;
    l9 = (b[((int) l2) - 58910] & 0xff) & 63;
    L8: {
     L9: {
      if (l5 + Integer.MIN_VALUE > 2147483631) { break L9; }
      l5 = ((l8 << 6) | ((l7 << 12) & 61440)) | l9;
      break L8;
     }
     l5 = ((l9 << 6) | ((l8 << 12) | ((l7 << 18) & 1835008))) | ((b[((int) l2) - 58909] & 0xff) & 63);
    }
    L10: {
     if (l5 == 20026) { break L10; }
     if (l5 == 28858) { break L10; }
     if (l5 == 26159) { break L10; }
     l3 = l1;
     break L3;
    }
    l2 = -2L;
    L11: {
     if (l6 + Integer.MIN_VALUE > -2147483457) { break L11; }
     l2 = ((b[((int) (l3 + -3L)) - 58912] & 0xff) + Integer.MIN_VALUE > -2147483457) ? -3L : -4L;
    }
    l3 = l2 + l1;
   }
   Words.put64(b, ((int) l4) - 58888, 0L);
   Words.put64(b, ((int) l4) - 58896, 0L);
   Words.put64(b, ((int) l4) - 58904, 0L);
   Core6.f204(m, l4 + 8L, 93728L, 6L, l0, l3);
   l5 = 1;
   if ((b[((int) l4) - 58904] & 0xff) == 1) { break L2; }
   Words.put64(b, ((int) l4) - 58888, 0L);
   Words.put64(b, ((int) l4) - 58896, 0L);
   Words.put64(b, ((int) l4) - 58904, 0L);
   Core6.f204(m, l4 + 8L, 93734L, 6L, l0, l3);
   l5 = 1;
   if ((b[((int) l4) - 58904] & 0xff) == 1) { break L2; }
   Words.put64(b, ((int) l4) - 58888, 0L);
   Words.put64(b, ((int) l4) - 58896, 0L);
   Words.put64(b, ((int) l4) - 58904, 0L);
   Core6.f204(m, l4 + 8L, 93740L, 6L, l0, l3);
   l5 = 1;
   if ((b[((int) l4) - 58904] & 0xff) == 1) { break L2; }
   Words.put64(b, ((int) l4) - 58888, 0L);
   Words.put64(b, ((int) l4) - 58896, 0L);
   Words.put64(b, ((int) l4) - 58904, 0L);
   Core6.f204(m, l4 + 8L, 93746L, 6L, l0, l3);
   l5 = 1;
   if ((b[((int) l4) - 58904] & 0xff) == 1) { break L2; }
   Words.put64(b, ((int) l4) - 58888, 0L);
   Words.put64(b, ((int) l4) - 58896, 0L);
   Words.put64(b, ((int) l4) - 58904, 0L);
   Core6.f204(m, l4 + 8L, 93752L, 6L, l0, l3);
   l5 = 1;
   if ((b[((int) l4) - 58904] & 0xff) == 1) { break L2; }
   Words.put64(b, ((int) l4) - 58888, 0L);
   Words.put64(b, ((int) l4) - 58896, 0L);
   Words.put64(b, ((int) l4) - 58904, 0L);
   Core6.f204(m, l4 + 8L, 93758L, 6L, l0, l3);
   l5 = 1;
   if ((b[((int) l4) - 58904] & 0xff) == 1) { break L2; }
   Words.put64(b, ((int) l4) - 58888, 0L);
   Words.put64(b, ((int) l4) - 58896, 0L);
   Words.put64(b, ((int) l4) - 58904, 0L);
   Core6.f204(m, l4 + 8L, 93764L, 6L, l0, l3);
   l5 = 1;
   if ((b[((int) l4) - 58904] & 0xff) == 1) { break L2; }
   Words.put64(b, ((int) l4) - 58888, 0L);
   Words.put64(b, ((int) l4) - 58896, 0L);
   Words.put64(b, ((int) l4) - 58904, 0L);
   Core6.f204(m, l4 + 8L, 93770L, 6L, l0, l3);
   l5 = 1;
   if ((b[((int) l4) - 58904] & 0xff) == 1) { break L2; }
   Words.put64(b, ((int) l4) - 58888, 0L);
   Words.put64(b, ((int) l4) - 58896, 0L);
   Words.put64(b, ((int) l4) - 58904, 0L);
   Core6.f204(m, l4 + 8L, 93776L, 9L, l0, l3);
   l5 = 1;
   if ((b[((int) l4) - 58904] & 0xff) == 1) { break L2; }
   Words.put64(b, ((int) l4) - 58888, 0L);
   Words.put64(b, ((int) l4) - 58896, 0L);
   Words.put64(b, ((int) l4) - 58904, 0L);
   Core6.f204(m, l4 + 8L, 93785L, 9L, l0, l3);
   l5 = ((b[((int) l4) - 58904] & 0xff) == 1) ? 1 : 0;
  }
  m.g0 = l4 + 32L;
  final int t12 = l5;
  return t12;
 }
 throw State.trap();
}

static void f219(State m, long l0, long l1, long l2) {
 final byte[] b = m.bytes;
 long l3 = 0;
 long l4 = 0;
 long l5 = 0;
 long l6 = 0;
 int l7 = 0;
 int l8 = 0;
 int l9 = 0;
 int l10 = 0;
 m.g0 = l3 = m.g0 - 16L;
 L1: {
  if ((l4 = l3) < 16L) { break L1; }
  l3 = l1;
  l5 = l2;
  L2: {
   L3: while (true) {
    if (l5 == 0L) { break L2; }
    l8 = (l7 = (int) b[((int) l3) - 58912]) & 255;
    l6 = 1L;
    L4: {
     if (l7 > -1) { break L4; }
     l9 = (b[((int) l3) - 58911] & 0xff) & 63;
     L5: {
      if (l7 + Integer.MIN_VALUE > 2147483615) { break L5; }
      l8 = ((l8 << 6) & 1984) | l9;
      l6 = 2L;
      break L4;
     }
     l10 = (b[((int) l3) - 58910] & 0xff) & 63;
     L6: {
      if (l7 + Integer.MIN_VALUE > 2147483631) { break L6; }
      l8 = ((l9 << 6) | ((l8 << 12) & 61440)) | l10;
      l6 = 3L;
      break L4;
     }
     l8 = ((l10 << 6) | ((l9 << 12) | ((l8 << 18) & 1835008))) | ((b[((int) l3) - 58909] & 0xff) & 63);
     l6 = 4L;
    }
    L7: {
     if (l8 == 65294) { break L7; }
     l5 = l5 - l6;
     l3 = l3 + l6;
     if (l8 != 46) { continue L3; }
    }
    break L3;
   }
   L8: while (true) {
    L9: {
     if (!((l6 = l2) == 0L)) { break L9; }
     l2 = 0L;
     break L2;
    }
    L10: {
     L11: {
      if ((l7 = (int) b[((int) (l1 + (l2 = l6 + -1L))) - 58912]) >= 0) { break L11; }
      l3 = -2L;
      L12: {
       if ((b[((int) ((l2 = l1 + l6) + -2L)) - 58912] & 0xff) + Integer.MIN_VALUE > -2147483457) { break L12; }
       l3 = ((b[((int) (l2 + -3L)) - 58912] & 0xff) + Integer.MIN_VALUE > -2147483457) ? -3L : -4L;
      }
      l7 = (l8 = (int) b[((int) (l3 = l1 + (l2 = l3 + l6))) - 58912]) & 255;
      if (l8 > -1) { break L11; }
      l9 = (b[((int) l3) - 58911] & 0xff) & 63;
      L13: {
       if (l8 + Integer.MIN_VALUE > 2147483615) { break L13; }
       l7 = ((l7 << 6) & 1984) | l9;
       break L11;
      }
      l10 = (b[((int) l3) - 58910] & 0xff) & 63;
      L14: {
       L15: {
        if (l8 + Integer.MIN_VALUE > 2147483631) { break L15; }
        l7 = ((l9 << 6) | ((l7 << 12) & 61440)) | l10;
        break L14;
       }
       l7 = ((l10 << 6) | ((l9 << 12) | ((l7 << 18) & 1835008))) | ((b[((int) l3) - 58909] & 0xff) & 63);
      }
      if (l7 == 24186) { break L10; }
     }
     l3 = -44L;
     L16: {
      L17: while (true) {
       if ((l9 = Words.get32(b, ((int) (l3 + 87508L)) - 58912)) == l7) { break L16; }
       l8 = (l3 != 0L) ? 1 : 0;
       l3 = l3 + 4L;
       if (l8 != 0) { continue L17; }
       break L17;
      }
     }
     L18: {
      L19: {
       if (l9 != l7) { break L19; }
       Core2.f63(m, l4, l7);
       l9 = b[((int) l4) - 58911] & 0xff;
       l8 = b[((int) l4) - 58912] & 0xff;
       break L18;
      }
      Core1.f24(m, l4 + 8L, l7);
      l9 = b[((int) l4) - 58903] & 0xff;
      l8 = b[((int) l4) - 58904] & 0xff;
     }
     L20: {
      if ((l8 & 255) != 1) { break L20; }
      if ((l9 & 255) != 0) { break L10; }
     }
     if ((l7 + -48) + Integer.MIN_VALUE < -2147483638) { continue L8; }
     if ((l7 + -65296) + Integer.MIN_VALUE < -2147483638) { continue L8; }
    }
    break L8;
   }
   L21: while (true) {
    L22: {
     if ((l8 = (int) b[((int) (l1 + (l3 = l6 + -1L))) - 58912]) >= 0) { break L22; }
     l3 = -2L;
     L23: {
      if ((b[((int) ((l2 = l1 + l6) + -2L)) - 58912] & 0xff) + Integer.MIN_VALUE > -2147483457) { break L23; }
      l3 = ((b[((int) (l2 + -3L)) - 58912] & 0xff) + Integer.MIN_VALUE > -2147483457) ? -3L : -4L;
     }
     l8 = (l7 = (int) b[((int) (l2 = l1 + (l3 = l3 + l6))) - 58912]) & 255;
     if (l7 > -1) { break L22; }
     l9 = (b[((int) l2) - 58911] & 0xff) & 63;
     L24: {
      if (l7 + Integer.MIN_VALUE > 2147483615) { break L24; }
      l8 = ((l8 << 6) & 1984) | l9;
      break L22;
     }
     l10 = (b[((int) l2) - 58910] & 0xff) & 63;
     L25: {
      if (l7 + Integer.MIN_VALUE > 2147483631) { break L25; }
      l8 = ((l9 << 6) | ((l8 << 12) & 61440)) | l10;
      break L22;
     }
     l8 = ((l10 << 6) | ((l9 << 12) | ((l8 << 18) & 1835008))) | ((b[((int) l2) - 58909] & 0xff) & 63);
    }
    L26: {
     if (l8 == 65294) { break L26; }
     l2 = l6;
     if (l8 != 46) { break L2; }
    }
    l2 = 0L;
    l6 = l3;
    if (l3 != 0L) { continue L21; }
    break L21;
   }
  }
  Words.put64(b, ((int) l0) - 58904, l2);
  Words.put64(b, ((int) l0) - 58912, l1);
  m.g0 = l4 + 16L;
  return;
 }
 throw State.trap();
}

static int f220(State m, long l0, long l1, long l2, long l3, long l4, long l5) {
 final byte[] b = m.bytes;
 long l6 = 0;
 long l7 = 0;
 long l8 = 0;
 long l9 = 0;
 long l10 = 0;
 long l11 = 0;
 int l12 = 0;
 int l13 = 0;
 int l14 = 0;
 int l15 = 0;
 int l16 = 0;
 int l17 = 0;
 int l18 = 0;
 L1: {
  if ((l6 = m.g0) < 16L) { break L1; }
  L2: {
   L3: {
    if ((l12 = (l1 == 0L) ? 1 : 0) != 0) { break L3; }
    l14 = l13 = (int) b[((int) ((l7 = l0 + l1) + -1L)) - 58912];
    L4: {
     if (l13 >= 0) { break L4; }
     l8 = -2L;
     L5: {
      if ((b[((int) (l7 + -2L)) - 58912] & 0xff) + Integer.MIN_VALUE > -2147483457) { break L5; }
      l8 = ((b[((int) (l7 + -3L)) - 58912] & 0xff) + Integer.MIN_VALUE > -2147483457) ? -3L : -4L;
     }
     l14 = (l15 = (int) b[((int) (l8 = (l0 + l8) + l1)) - 58912]) & 255;
     if (l15 > -1) { break L4; }
     l16 = (b[((int) l8) - 58911] & 0xff) & 63;
     L6: {
      if (l15 + Integer.MIN_VALUE > 2147483615) { break L6; }
      l14 = ((l14 << 6) & 1984) | l16;
      break L4;
     }
     l17 = (b[((int) l8) - 58910] & 0xff) & 63;
     L7: {
      if (l15 + Integer.MIN_VALUE > 2147483631) { break L7; }
      l14 = ((l16 << 6) | ((l14 << 12) & 61440)) | l17;
      break L4;
     }
     l14 = ((l17 << 6) | ((l16 << 12) | ((l14 << 18) & 1835008))) | ((b[((int) l8) - 58909] & 0xff) & 63);
    }
    L8: {
     if (((l14 & -33) + -65) + Integer.MIN_VALUE > -2147483623) { break L8; }
     l14 = 1;
     if (f214(m, l0, l1) == 0) { break L2; }
     if (l5 == 0L) { break L8; }
     l15 = (l16 = (int) b[((int) l4) - 58912]) & 255;
     L9: {
      if (l16 > -1) { break L9; }
      l17 = (b[((int) l4) - 58911] & 0xff) & 63;
      L10: {
       if (l16 + Integer.MIN_VALUE > 2147483615) { break L10; }
       l15 = ((l15 << 6) & 1984) | l17;
       break L9;
      }
      l18 = (b[((int) l4) - 58910] & 0xff) & 63;
      L11: {
       if (l16 + Integer.MIN_VALUE > 2147483631) { break L11; }
       l15 = ((l17 << 6) | ((l15 << 12) & 61440)) | l18;
       break L9;
      }
      l15 = ((l18 << 6) | ((l17 << 12) | ((l15 << 18) & 1835008))) | ((b[((int) l4) - 58909] & 0xff) & 63);
     }
     if (((l15 & 2097119) + -65) + Integer.MIN_VALUE < -2147483622) { break L2; }
     if ((l15 + -48) + Integer.MIN_VALUE < -2147483638) { break L2; }
     if ((l15 + -65296) + Integer.MIN_VALUE < -2147483638) { break L2; }
    }
    L12: {
     L13: {
      L14: {
       if (l13 > -1) { break L14; }
       l8 = -2L;
       L15: {
        if ((b[((int) (l7 + -2L)) - 58912] & 0xff) + Integer.MIN_VALUE > -2147483457) { break L15; }
        l8 = ((b[((int) (l7 + -3L)) - 58912] & 0xff) + Integer.MIN_VALUE > -2147483457) ? -3L : -4L;
       }
       l13 = (l14 = (int) b[((int) (l8 = (l0 + l8) + l1)) - 58912]) & 255;
       L16: {
        if (l14 > -1) { break L16; }
        l15 = (b[((int) l8) - 58911] & 0xff) & 63;
        L17: {
         if (l14 + Integer.MIN_VALUE > 2147483615) { break L17; }
         l13 = ((l13 << 6) & 1984) | l15;
         break L16;
        }
        l16 = (b[((int) l8) - 58910] & 0xff) & 63;
        L18: {
         if (l14 + Integer.MIN_VALUE > 2147483631) { break L18; }
         l13 = ((l15 << 6) | ((l13 << 12) & 61440)) | l16;
         break L16;
        }
        l13 = ((l16 << 6) | ((l15 << 12) | ((l13 << 18) & 1835008))) | ((b[((int) l8) - 58909] & 0xff) & 63);
       }
       l14 = 1;
       if ((l13 + -48) + Integer.MIN_VALUE < -2147483638) { break L2; }
       if ((l13 + -65296) + Integer.MIN_VALUE < -2147483638) { break L2; }
       l8 = -2L;
       L19: {
        if ((b[((int) (l7 + -2L)) - 58912] & 0xff) + Integer.MIN_VALUE > -2147483457) { break L19; }
        l8 = ((b[((int) (l7 + -3L)) - 58912] & 0xff) + Integer.MIN_VALUE > -2147483457) ? -3L : -4L;
       }
       l13 = (l14 = (int) b[((int) (l7 = (l0 + l8) + l1)) - 58912]) & 255;
       if (l14 > -1) { break L12; }
       l15 = (b[((int) l7) - 58911] & 0xff) & 63;
       if (l14 + Integer.MIN_VALUE > 2147483615) { break L13; }
       l13 = ((l13 << 6) & 1984) | l15;
       break L12;
      }
      if (((l13 + -48) & 255) + Integer.MIN_VALUE >= -2147483638) { break L12; }
      m.g0 = l6;
      return 1;
     }
     l16 = (b[((int) l7) - 58910] & 0xff) & 63;
     L20: {
      if (l14 + Integer.MIN_VALUE > 2147483631) { break L20; }
      l13 = ((l15 << 6) | ((l13 << 12) & 61440)) | l16;
      break L12;
     }
     l13 = ((l16 << 6) | ((l15 << 12) | ((l13 << 18) & 1835008))) | ((b[((int) l7) - 58909] & 0xff) & 63);
    }
    l7 = -68L;
    L21: {
     L22: while (true) {
      if ((l15 = (Words.get32(b, ((int) (l7 + 93868L)) - 58912) == l13) ? 1 : 0) != 0) { break L21; }
      l14 = (l7 != 0L) ? 1 : 0;
      l7 = l7 + 4L;
      if (l14 != 0) { continue L22; }
      break L22;
     }
    }
    if (l15 == 0) { break L3; }
    m.g0 = l6;
    return 1;
   }
   l7 = l2;
   l9 = l3;
   L23: {
    L24: while (true) {
     if ((l10 = l9) == 0L) { break L23; }
     l14 = (l13 = (int) b[((int) l7) - 58912]) & 255;
     l8 = 1L;
     L25: {
      if (l13 > -1) { break L25; }
      l15 = (b[((int) l7) - 58911] & 0xff) & 63;
      L26: {
       if (l13 + Integer.MIN_VALUE > 2147483615) { break L26; }
       l14 = ((l14 << 6) & 1984) | l15;
       l8 = 2L;
       break L25;
      }
      l16 = (b[((int) l7) - 58910] & 0xff) & 63;
      L27: {
       if (l13 + Integer.MIN_VALUE > 2147483631) { break L27; }
       l14 = ((l15 << 6) | ((l14 << 12) & 61440)) | l16;
       l8 = 3L;
       break L25;
      }
      l14 = ((l16 << 6) | ((l15 << 12) | ((l14 << 18) & 1835008))) | ((b[((int) l7) - 58909] & 0xff) & 63);
      l8 = 4L;
     }
     l9 = l10 - l8;
     l7 = l7 + l8;
     if ((l14 + -48) + Integer.MIN_VALUE < -2147483638) { continue L24; }
     if ((l14 + -65296) + Integer.MIN_VALUE < -2147483638) { continue L24; }
     break L24;
    }
   }
   L28: {
    if (l12 != 0) { break L28; }
    L29: {
     L30: {
      L31: {
       L32: {
        L33: {
         if ((l14 = (int) b[((int) ((l7 = l0 + l1) + -1L)) - 58912]) > -1) { break L33; }
         l8 = -2L;
         L34: {
          if ((l16 = b[((int) (l7 + -2L)) - 58912] & 0xff) + Integer.MIN_VALUE > -2147483457) { break L34; }
          l8 = ((b[((int) (l7 + -3L)) - 58912] & 0xff) + Integer.MIN_VALUE > -2147483457) ? -3L : -4L;
         }
         l13 = (l15 = (int) b[((int) (l8 = (l0 + l8) + l1)) - 58912]) & 255;
         L35: {
          if (l15 > -1) { break L35; }
          l12 = (b[((int) l8) - 58911] & 0xff) & 63;
          L36: {
           if (l15 + Integer.MIN_VALUE > 2147483615) { break L36; }
           l13 = ((l13 << 6) & 1984) | l12;
           break L35;
          }
          l17 = (b[((int) l8) - 58910] & 0xff) & 63;
          L37: {
           if (l15 + Integer.MIN_VALUE > 2147483631) { break L37; }
           l13 = ((l12 << 6) | ((l13 << 12) & 61440)) | l17;
           break L35;
          }
          l13 = ((l17 << 6) | ((l12 << 12) | ((l13 << 18) & 1835008))) | ((b[((int) l8) - 58909] & 0xff) & 63);
         }
         if (l13 != 32) { break L31; }
         l8 = -2L;
         L38: {
          if (l16 + Integer.MIN_VALUE > -2147483457) { break L38; }
          l8 = ((b[((int) (l7 + -3L)) - 58912] & 0xff) + Integer.MIN_VALUE > -2147483457) ? -3L : -4L;
         }
         l8 = l8 + l1;
         break L32;
        }
        if (l14 != 32) { break L28; }
        l8 = l1 + -1L;
       }
       L39: {
        if (l8 == 0L) { break L39; }
        L40: {
         if ((l13 = (int) b[((int) ((l9 = l0 + l8) + -1L)) - 58912]) >= 0) { break L40; }
         l11 = -2L;
         L41: {
          if ((b[((int) (l9 + -2L)) - 58912] & 0xff) + Integer.MIN_VALUE > -2147483457) { break L41; }
          l11 = ((b[((int) (l9 + -3L)) - 58912] & 0xff) + Integer.MIN_VALUE > -2147483457) ? -3L : -4L;
         }
         l13 = (l15 = (int) b[((int) (l8 = (l0 + l11) + l8)) - 58912]) & 255;
         if (l15 > -1) { break L40; }
         l16 = (b[((int) l8) - 58911] & 0xff) & 63;
         L42: {
          if (l15 + Integer.MIN_VALUE > 2147483615) { break L42; }
          l13 = ((l13 << 6) & 1984) | l16;
          break L40;
         }
         l12 = (b[((int) l8) - 58910] & 0xff) & 63;
         L43: {
          if (l15 + Integer.MIN_VALUE > 2147483631) { break L43; }
          l13 = ((l16 << 6) | ((l13 << 12) & 61440)) | l12;
          break L40;
         }
         l13 = ((l12 << 6) | ((l16 << 12) | ((l13 << 18) & 1835008))) | ((b[((int) l8) - 58909] & 0xff) & 63);
        }
        if (l3 == l10) { break L39; }
        if (((l13 & -33) + -91) + Integer.MIN_VALUE < 2147483622) { break L39; }
        L44: {
         L45: {
          if ((l13 = (int) b[((int) l2) - 58912]) <= -1) { break L45; }
          l8 = 1L;
          break L44;
         }
         L46: {
          if (l13 + Integer.MIN_VALUE >= 2147483616) { break L46; }
          l8 = 2L;
          break L44;
         }
         l8 = (l13 + Integer.MIN_VALUE < 2147483632) ? 3L : 4L;
        }
        if (l3 == (l9 = l8 + l10)) { break L39; }
        L47: {
         L48: {
          if ((l13 = (int) b[((int) (l2 + l8)) - 58912]) <= -1) { break L48; }
          l8 = 1L;
          break L47;
         }
         L49: {
          if (l13 + Integer.MIN_VALUE >= 2147483616) { break L49; }
          l8 = 2L;
          break L47;
         }
         l8 = (l13 + Integer.MIN_VALUE < 2147483632) ? 3L : 4L;
        }
        if (l3 == (l8 + l9)) { break L39; }
        l8 = l2;
        l10 = l3;
        L50: while (true) {
         L51: {
          if (!(l10 == 0L)) { break L51; }
          m.g0 = l6;
          return 1;
         }
         l13 = (l15 = (int) b[((int) l8) - 58912]) & 255;
         l9 = 1L;
         L52: {
          if (l15 > -1) { break L52; }
          l16 = (b[((int) l8) - 58911] & 0xff) & 63;
          L53: {
           if (l15 + Integer.MIN_VALUE > 2147483615) { break L53; }
           l13 = ((l13 << 6) & 1984) | l16;
           l9 = 2L;
           break L52;
          }
          l12 = (b[((int) l8) - 58910] & 0xff) & 63;
          L54: {
           if (l15 + Integer.MIN_VALUE > 2147483631) { break L54; }
           l13 = ((l16 << 6) | ((l13 << 12) & 61440)) | l12;
           l9 = 3L;
           break L52;
          }
          l13 = ((l12 << 6) | ((l16 << 12) | ((l13 << 18) & 1835008))) | ((b[((int) l8) - 58909] & 0xff) & 63);
          l9 = 4L;
         }
         l10 = l10 - l9;
         l8 = l8 + l9;
         if (l13 != 46) { continue L50; }
         break L50;
        }
       }
       if (l14 > -1) { break L30; }
      }
      l8 = -2L;
      L55: {
       if ((l15 = b[((int) (l7 + -2L)) - 58912] & 0xff) + Integer.MIN_VALUE > -2147483457) { break L55; }
       l8 = ((b[((int) (l7 + -3L)) - 58912] & 0xff) + Integer.MIN_VALUE > -2147483457) ? -3L : -4L;
      }
      l14 = (l13 = (int) b[((int) (l8 = (l0 + l8) + l1)) - 58912]) & 255;
      L56: {
       if (l13 > -1) { break L56; }
       l16 = (b[((int) l8) - 58911] & 0xff) & 63;
       L57: {
        if (l13 + Integer.MIN_VALUE > 2147483615) { break L57; }
        l14 = ((l14 << 6) & 1984) | l16;
        break L56;
       }
       l12 = (b[((int) l8) - 58910] & 0xff) & 63;
       L58: {
        if (l13 + Integer.MIN_VALUE > 2147483631) { break L58; }
        l14 = ((l16 << 6) | ((l14 << 12) & 61440)) | l12;
        break L56;
       }
       l14 = ((l12 << 6) | ((l16 << 12) | ((l14 << 18) & 1835008))) | ((b[((int) l8) - 58909] & 0xff) & 63);
      }
      if (l14 != 32) { break L28; }
      l8 = -2L;
      L59: {
       if (l15 + Integer.MIN_VALUE > -2147483457) { break L59; }
       l8 = ((b[((int) (l7 + -3L)) - 58912] & 0xff) + Integer.MIN_VALUE > -2147483457) ? -3L : -4L;
      }
      l7 = l8 + l1;
      break L29;
     }
     if (l14 != 32) { break L28; }
     l7 = l1 + -1L;
    }
    if (l7 == 0L) { break L28; }
    L60: {
     if ((l14 = (int) b[((int) ((l8 = l0 + l7) + -1L)) - 58912]) >= 0) { break L60; }
     l9 = -2L;
     L61: {
      if ((b[((int) (l8 + -2L)) - 58912] & 0xff) + Integer.MIN_VALUE > -2147483457) { break L61; }
      l9 = ((b[((int) (l8 + -3L)) - 58912] & 0xff) + Integer.MIN_VALUE > -2147483457) ? -3L : -4L;
     }
     l14 = (l13 = (int) b[((int) (l7 = (l0 + l9) + l7)) - 58912]) & 255;
     if (l13 > -1) { break L60; }
     l15 = (b[((int) l7) - 58911] & 0xff) & 63;
     L62: {
      if (l13 + Integer.MIN_VALUE > 2147483615) { break L62; }
      l14 = ((l14 << 6) & 1984) | l15;
      break L60;
     }
     l16 = (b[((int) l7) - 58910] & 0xff) & 63;
     L63: {
      if (l13 + Integer.MIN_VALUE > 2147483631) { break L63; }
      l14 = ((l15 << 6) | ((l14 << 12) & 61440)) | l16;
      break L60;
     }
     l14 = ((l16 << 6) | ((l15 << 12) | ((l14 << 18) & 1835008))) | ((b[((int) l7) - 58909] & 0xff) & 63);
    }
    L64: {
     if ((l14 + -48) + Integer.MIN_VALUE < -2147483638) { break L64; }
     if ((l14 + -65296) + Integer.MIN_VALUE > -2147483639) { break L28; }
    }
    if (f224(m, l2, l3) == 0) { break L28; }
    m.g0 = l6;
    return 1;
   }
   L65: {
    if (!(l3 == 0L)) { break L65; }
    m.g0 = l6;
    return 0;
   }
   l14 = 0;
   L66: {
    if ((l13 = (int) b[((int) ((l7 = l2 + l3) + -1L)) - 58912]) >= 0) { break L66; }
    l8 = -2L;
    L67: {
     if ((b[((int) (l7 + -2L)) - 58912] & 0xff) + Integer.MIN_VALUE > -2147483457) { break L67; }
     l8 = ((b[((int) (l7 + -3L)) - 58912] & 0xff) + Integer.MIN_VALUE > -2147483457) ? -3L : -4L;
    }
    l13 = (l15 = (int) b[((int) (l7 = (l2 + l8) + l3)) - 58912]) & 255;
    if (l15 > -1) { break L66; }
    l16 = (b[((int) l7) - 58911] & 0xff) & 63;
    L68: {
     if (l15 + Integer.MIN_VALUE > 2147483615) { break L68; }
     l13 = ((l13 << 6) & 1984) | l16;
     break L66;
    }
    l12 = (b[((int) l7) - 58910] & 0xff) & 63;
    L69: {
     if (l15 + Integer.MIN_VALUE > 2147483631) { break L69; }
     l13 = ((l16 << 6) | ((l13 << 12) & 61440)) | l12;
     break L66;
    }
    l13 = ((l12 << 6) | ((l16 << 12) | ((l13 << 18) & 1835008))) | ((b[((int) l7) - 58909] & 0xff) & 63);
   }
   if (l5 == 0L) { break L2; }
   if (((l13 + -58) + Integer.MIN_VALUE < 2147483638) & ((l13 + -65306) + Integer.MIN_VALUE < 2147483638)) { break L2; }
   L70: {
    L71: {
     if ((l13 = (int) b[((int) l4) - 58912]) > -1) { break L71; }
     l15 = l13 & 255;
     l16 = (b[((int) l4) - 58911] & 0xff) & 63;
     L72: {
      if (l13 + Integer.MIN_VALUE < 2147483616) { break L72; }
      l12 = (b[((int) l4) - 58910] & 0xff) & 63;
      L73: {
       L74: {
        if (l13 + Integer.MIN_VALUE > 2147483631) { break L74; }
        l15 = ((l16 << 6) | ((l15 << 12) & 61440)) | l12;
        break L73;
       }
       l15 = ((l12 << 6) | ((l16 << 12) | ((l15 << 18) & 1835008))) | ((b[((int) l4) - 58909] & 0xff) & 63);
      }
      if (l15 != 32) { break L2; }
      l7 = (l13 + Integer.MIN_VALUE < 2147483632) ? 3L : 4L;
      break L70;
     }
     if ((((l15 << 6) & 1984) | l16) != 32) { break L2; }
     l7 = 2L;
     break L70;
    }
    if (l13 != 32) { break L2; }
    l7 = 1L;
   }
   l14 = f224(m, l4 + l7, l5 - l7);
  }
  m.g0 = l6;
  final int t75 = l14;
  return t75;
 }
 throw State.trap();
}

static int f221(State m, long l0, long l1, long l2, long l3) {
 final byte[] b = m.bytes;
 int l4 = 0;
 int l5 = 0;
 int l6 = 0;
 int l7 = 0;
 int l8 = 0;
 int l9 = 0;
 int l10 = 0;
 long l11 = 0;
 long l12 = 0;
 long l13 = 0;
 L1: {
  L2: {
   L3: {
    L4: {
     L5: {
      if (m.g0 < 16L) { break L5; }
      l4 = 0;
      if (l3 == 0L) { break L1; }
      l4 = l6 = (l5 = (int) b[((int) l2) - 58912]) & 255;
      L6: {
       if (l5 > -1) { break L6; }
       l4 = (b[((int) l2) - 58911] & 0xff) & 63;
       L7: {
        if (l5 + Integer.MIN_VALUE > 2147483615) { break L7; }
        l4 = ((l6 << 6) & 1984) | l4;
        break L6;
       }
       l7 = (b[((int) l2) - 58910] & 0xff) & 63;
       L8: {
        if (l5 + Integer.MIN_VALUE > 2147483631) { break L8; }
        l4 = ((l4 << 6) | ((l6 << 12) & 61440)) | l7;
        break L6;
       }
       l4 = ((l7 << 6) | ((l4 << 12) | ((l6 << 18) & 1835008))) | ((b[((int) l2) - 58909] & 0xff) & 63);
      }
      L9: {
       L10: {
        if (((l4 & 2097119) + -65) + Integer.MIN_VALUE < -2147483622) { break L10; }
        if ((l4 + -48) + Integer.MIN_VALUE < -2147483638) { break L10; }
        if ((l4 + -65296) + Integer.MIN_VALUE > -2147483639) { break L9; }
       }
       L11: {
        L12: {
         if (l5 < 0) { break L12; }
         l11 = l3 + -1L;
         l12 = l2 + 1L;
         l7 = l6;
         break L11;
        }
        L13: {
         if (l5 + Integer.MIN_VALUE > 2147483615) { break L13; }
         l7 = ((l6 << 6) & 1984) | ((b[((int) l2) - 58911] & 0xff) & 63);
         l12 = l2 + 2L;
         l11 = l3 + -2L;
         break L11;
        }
        l4 = (b[((int) l2) - 58910] & 0xff) & 63;
        l7 = (b[((int) l2) - 58911] & 0xff) & 63;
        l11 = l3 - (l12 = (l5 + Integer.MIN_VALUE < 2147483632) ? 3L : 4L);
        l12 = l2 + l12;
        L14: {
         if (l5 + Integer.MIN_VALUE > 2147483631) { break L14; }
         l7 = ((l7 << 6) | ((l6 << 12) & 61440)) | l4;
         break L11;
        }
        l7 = ((l4 << 6) | ((l7 << 12) | ((l6 << 18) & 1835008))) | ((b[((int) l2) - 58909] & 0xff) & 63);
       }
       l4 = 1;
       if ((l7 + -65) + Integer.MIN_VALUE > -2147483623) { break L1; }
       L15: {
        if (l1 == 0L) { break L15; }
        L16: {
         L17: {
          if ((l7 = (int) b[((int) l0) - 58912]) <= -1) { break L17; }
          l13 = 1L;
          break L16;
         }
         L18: {
          if (l7 + Integer.MIN_VALUE >= 2147483616) { break L18; }
          l13 = 2L;
          break L16;
         }
         l13 = (l7 + Integer.MIN_VALUE < 2147483632) ? 3L : 4L;
        }
        if (l1 == l13) { break L15; }
        L19: {
         L20: {
          if ((l7 = (int) b[((int) (l0 + l13)) - 58912]) <= -1) { break L20; }
          l0 = 1L;
          break L19;
         }
         L21: {
          if (l7 + Integer.MIN_VALUE >= 2147483616) { break L21; }
          l0 = 2L;
          break L19;
         }
         l0 = (l7 + Integer.MIN_VALUE < 2147483632) ? 3L : 4L;
        }
        if (l1 != (l0 + l13)) { break L1; }
       }
       if (l11 == 0L) { break L9; }
       l7 = l9 = (l8 = (int) b[((int) l12) - 58912]) & 255;
       L22: {
        if (l8 > -1) { break L22; }
        l7 = (b[((int) l12) - 58911] & 0xff) & 63;
        L23: {
         if (l8 + Integer.MIN_VALUE > 2147483615) { break L23; }
         l7 = ((l9 << 6) & 1984) | l7;
         break L22;
        }
        l10 = (b[((int) l12) - 58910] & 0xff) & 63;
        L24: {
         if (l8 + Integer.MIN_VALUE > 2147483631) { break L24; }
         l7 = ((l7 << 6) | ((l9 << 12) & 61440)) | l10;
         break L22;
        }
        l7 = ((l10 << 6) | ((l7 << 12) | ((l9 << 18) & 1835008))) | ((b[((int) l12) - 58909] & 0xff) & 63);
       }
       if (((l7 & 2097119) + -65) + Integer.MIN_VALUE < -2147483622) { break L1; }
       if ((l7 + -58) + Integer.MIN_VALUE > 2147483637) { break L1; }
       if ((l7 + -65306) + Integer.MIN_VALUE > 2147483637) { break L1; }
       L25: {
        if (l8 > -1) { break L25; }
        l7 = (b[((int) l12) - 58911] & 0xff) & 63;
        L26: {
         if (l8 + Integer.MIN_VALUE > 2147483615) { break L26; }
         l9 = ((l9 << 6) & 1984) | l7;
         break L25;
        }
        l10 = (b[((int) l12) - 58910] & 0xff) & 63;
        L27: {
         if (l8 + Integer.MIN_VALUE > 2147483631) { break L27; }
         l9 = ((l7 << 6) | ((l9 << 12) & 61440)) | l10;
         break L25;
        }
        l9 = ((l10 << 6) | ((l7 << 12) | ((l9 << 18) & 1835008))) | ((b[((int) l12) - 58909] & 0xff) & 63);
       }
       L28: {
        switch (l9 + -45) {
        case 0: case 2: break L1;
        case 1: break L9;
        default: break L28;
        }
       }
       if (l9 == 95) { break L1; }
      }
      l7 = l6;
      L29: {
       if (l5 > -1) { break L29; }
       l4 = (b[((int) l2) - 58911] & 0xff) & 63;
       L30: {
        if (l5 + Integer.MIN_VALUE > 2147483615) { break L30; }
        l7 = ((l6 << 6) & 1984) | l4;
        break L29;
       }
       l7 = (b[((int) l2) - 58910] & 0xff) & 63;
       L31: {
        if (l5 + Integer.MIN_VALUE > 2147483631) { break L31; }
        l7 = ((l4 << 6) | ((l6 << 12) & 61440)) | l7;
        break L29;
       }
       l7 = ((l7 << 6) | ((l4 << 12) | ((l6 << 18) & 1835008))) | ((b[((int) l2) - 58909] & 0xff) & 63);
      }
      l1 = -44L;
      L32: {
       L33: while (true) {
        if ((l8 = (Words.get32(b, ((int) (l1 + 93916L)) - 58912) == l7) ? 1 : 0) != 0) { break L32; }
        l4 = (l1 != 0L) ? 1 : 0;
        l1 = l1 + 4L;
        if (l4 != 0) { continue L33; }
        break L33;
       }
      }
      l4 = 1;
      if (l8 != 0) { break L1; }
      l7 = l6;
      L34: {
       if (l5 > -1) { break L34; }
       l7 = (b[((int) l2) - 58911] & 0xff) & 63;
       L35: {
        if (l5 + Integer.MIN_VALUE > 2147483615) { break L35; }
        l7 = ((l6 << 6) & 1984) | l7;
        break L34;
       }
       l8 = (b[((int) l2) - 58910] & 0xff) & 63;
       L36: {
        if (l5 + Integer.MIN_VALUE > 2147483631) { break L36; }
        l7 = ((l7 << 6) | ((l6 << 12) & 61440)) | l8;
        break L34;
       }
       l7 = ((l8 << 6) | ((l7 << 12) | ((l6 << 18) & 1835008))) | ((b[((int) l2) - 58909] & 0xff) & 63);
      }
      if (l7 + Integer.MIN_VALUE > -2147483590) { break L4; }
      if (((1L << (l7 & 0xffffffffL)) & 288335929267978240L) == 0L) { break L4; }
      break L3;
     }
     throw State.trap();
    }
    if (l7 != 65306) { break L2; }
   }
   L37: {
    L38: {
     if (l5 <= -1) { break L38; }
     l1 = 1L;
     break L37;
    }
    L39: {
     if (l5 + Integer.MIN_VALUE >= 2147483616) { break L39; }
     l1 = 2L;
     break L37;
    }
    l1 = (l5 + Integer.MIN_VALUE < 2147483632) ? 3L : 4L;
   }
   if (l3 == l1) { break L2; }
   l7 = (l8 = (int) b[((int) (l1 = l2 + l1)) - 58912]) & 255;
   L40: {
    if (l8 > -1) { break L40; }
    l9 = (b[((int) l1) - 58911] & 0xff) & 63;
    L41: {
     if (l8 + Integer.MIN_VALUE > 2147483615) { break L41; }
     l7 = ((l7 << 6) & 1984) | l9;
     break L40;
    }
    l10 = (b[((int) l1) - 58910] & 0xff) & 63;
    L42: {
     if (l8 + Integer.MIN_VALUE > 2147483631) { break L42; }
     l7 = ((l9 << 6) | ((l7 << 12) & 61440)) | l10;
     break L40;
    }
    l7 = ((l10 << 6) | ((l9 << 12) | ((l7 << 18) & 1835008))) | ((b[((int) l1) - 58909] & 0xff) & 63);
   }
   if (((l7 & 2097119) + -65) + Integer.MIN_VALUE < -2147483622) { break L1; }
   if ((l7 + -48) + Integer.MIN_VALUE < -2147483638) { break L1; }
   if ((l7 + -65296) + Integer.MIN_VALUE < -2147483638) { break L1; }
  }
  L43: {
   L44: {
    if (l5 > -1) { break L44; }
    l7 = (b[((int) l2) - 58911] & 0xff) & 63;
    L45: {
     if (l5 + Integer.MIN_VALUE < 2147483616) { break L45; }
     l4 = (b[((int) l2) - 58910] & 0xff) & 63;
     L46: {
      L47: {
       if (l5 + Integer.MIN_VALUE > 2147483631) { break L47; }
       l7 = ((l7 << 6) | ((l6 << 12) & 61440)) | l4;
       break L46;
      }
      l7 = ((l4 << 6) | ((l7 << 12) | ((l6 << 18) & 1835008))) | ((b[((int) l2) - 58909] & 0xff) & 63);
     }
     l4 = 0;
     if (l7 != 47) { break L1; }
     l1 = (l5 + Integer.MIN_VALUE < 2147483632) ? 3L : 4L;
     break L43;
    }
    l4 = 0;
    if ((((l6 << 6) & 1984) | l7) != 47) { break L1; }
    l1 = 2L;
    break L43;
   }
   l4 = 0;
   if (l5 != 47) { break L1; }
   l1 = 1L;
  }
  l4 = 1;
  if (l3 == l1) { break L1; }
  l4 = (l7 = (int) b[((int) (l1 = l2 + l1)) - 58912]) & 255;
  L48: {
   if (l7 > -1) { break L48; }
   l8 = (b[((int) l1) - 58911] & 0xff) & 63;
   L49: {
    if (l7 + Integer.MIN_VALUE > 2147483615) { break L49; }
    l4 = ((l4 << 6) & 1984) | l8;
    break L48;
   }
   l5 = (b[((int) l1) - 58910] & 0xff) & 63;
   L50: {
    if (l7 + Integer.MIN_VALUE > 2147483631) { break L50; }
    l4 = ((l8 << 6) | ((l4 << 12) & 61440)) | l5;
    break L48;
   }
   l4 = ((l5 << 6) | ((l8 << 12) | ((l4 << 18) & 1835008))) | ((b[((int) l1) - 58909] & 0xff) & 63);
  }
  l4 = ((l4 + -40960) + Integer.MIN_VALUE < 2147462656) ? 1 : 0;
 }
 return l4;
}

static void f222(State m, long l0, long l1, long l2) {
 final byte[] b = m.bytes;
 long l3 = 0;
 long l4 = 0;
 int l5 = 0;
 int l6 = 0;
 int l7 = 0;
 int l8 = 0;
 m.g0 = l3 = m.g0 - 32L;
 L1: {
  if ((l3 = l3) < 16L) { break L1; }
  f225(m, l3 + 16L, l1, l2);
  l2 = Words.get64(b, ((int) l3) - 58896);
  L2: {
   if ((l1 = Words.get64(b, ((int) l3) - 58888)) == 0L) { break L2; }
   l6 = (l5 = (int) b[((int) l2) - 58912]) & 255;
   L3: {
    if (l5 > -1) { break L3; }
    l7 = (b[((int) l2) - 58911] & 0xff) & 63;
    L4: {
     if (l5 + Integer.MIN_VALUE > 2147483615) { break L4; }
     l6 = ((l6 << 6) & 1984) | l7;
     break L3;
    }
    l8 = (b[((int) l2) - 58910] & 0xff) & 63;
    L5: {
     if (l5 + Integer.MIN_VALUE > 2147483631) { break L5; }
     l6 = ((l7 << 6) | ((l6 << 12) & 61440)) | l8;
     break L3;
    }
    l6 = ((l8 << 6) | ((l7 << 12) | ((l6 << 18) & 1835008))) | ((b[((int) l2) - 58909] & 0xff) & 63);
   }
   L6: {
    if (l6 == 65509) { break L6; }
    if (l6 != 165) { break L2; }
   }
   L7: {
    L8: {
     if (l5 <= -1) { break L8; }
     l4 = 1L;
     break L7;
    }
    L9: {
     if (l5 + Integer.MIN_VALUE >= 2147483616) { break L9; }
     l4 = 2L;
     break L7;
    }
    l4 = (l5 + Integer.MIN_VALUE < 2147483632) ? 3L : 4L;
   }
   f219(m, l3, l2 + l4, l1 - l4);
   l1 = Words.get64(b, ((int) l3) - 58904);
   l2 = Words.get64(b, ((int) l3) - 58912);
  }
  Words.put64(b, ((int) l0) - 58912, l2);
  Words.put64(b, ((int) l0) - 58904, l1);
  m.g0 = l3 + 32L;
  return;
 }
 throw State.trap();
}

static int f223(State m, long l0, long l1) {
 final byte[] b = m.bytes;
 long l2 = 0;
 long l3 = 0;
 int l4 = 0;
 int l5 = 0;
 int l6 = 0;
 int l7 = 0;
 int l8 = 0;
 m.g0 = l2 = m.g0 - 32L;
 L1: {
  L2: {
   L3: {
    L4: {
     if ((l3 = l2) < 16L) { break L4; }
     l4 = 0;
     if (l1 == 0L) { break L1; }
     l6 = (l5 = (int) b[((int) l0) - 58912]) & 255;
     L5: {
      L6: {
       L7: {
        L8: {
         if (l5 > -1) { break L8; }
         l7 = (b[((int) l0) - 58911] & 0xff) & 63;
         L9: {
          if (l5 + Integer.MIN_VALUE < 2147483616) { break L9; }
          l8 = (b[((int) l0) - 58910] & 0xff) & 63;
          L10: {
           L11: {
            if (l5 + Integer.MIN_VALUE > 2147483631) { break L11; }
            l7 = ((l7 << 6) | ((l6 << 12) & 61440)) | l8;
            break L10;
           }
           l7 = ((l8 << 6) | ((l7 << 12) | ((l6 << 18) & 1835008))) | ((b[((int) l0) - 58909] & 0xff) & 63);
          }
          if (l7 == 32) { break L7; }
          l7 = (b[((int) l0) - 58911] & 0xff) & 63;
          break L3;
         }
         L12: {
          if ((((l6 << 6) & 1984) | l7) != 32) { break L12; }
          l2 = 2L;
          break L6;
         }
         l7 = (b[((int) l0) - 58911] & 0xff) & 63;
         break L5;
        }
        if (l5 != 32) { break L2; }
        l2 = 1L;
        break L6;
       }
       l2 = (l5 + Integer.MIN_VALUE < 2147483632) ? 3L : 4L;
      }
      if ((l1 = l1 - l2) == 0L) { break L1; }
      l6 = (l5 = (int) b[((int) (l0 = l0 + l2)) - 58912]) & 255;
      if (l5 > -1) { break L2; }
      l7 = (b[((int) l0) - 58911] & 0xff) & 63;
      if (l5 + Integer.MIN_VALUE > 2147483615) { break L3; }
     }
     l6 = ((l6 << 6) & 1984) | l7;
     break L2;
    }
    throw State.trap();
   }
   l8 = (b[((int) l0) - 58910] & 0xff) & 63;
   L13: {
    if (l5 + Integer.MIN_VALUE > 2147483631) { break L13; }
    l6 = ((l7 << 6) | ((l6 << 12) & 61440)) | l8;
    break L2;
   }
   l6 = ((l8 << 6) | ((l7 << 12) | ((l6 << 18) & 1835008))) | ((b[((int) l0) - 58909] & 0xff) & 63);
  }
  l2 = -668L;
  L14: {
   L15: while (true) {
    if ((l7 = Words.get32(b, ((int) (l2 + 87276L)) - 58912)) == l6) { break L14; }
    l5 = (l2 != 0L) ? 1 : 0;
    l2 = l2 + 4L;
    if (l5 != 0) { continue L15; }
    break L15;
   }
  }
  if (l7 != l6) { break L1; }
  Words.put64(b, ((int) l3) - 58888, 0L);
  Words.put64(b, ((int) l3) - 58896, 0L);
  Words.put64(b, ((int) l3) - 58904, 0L);
  Core6.f197(m, l3 + 8L, 97824L, 6L, l0, l1);
  if ((b[((int) l3) - 58904] & 0xff) == 1) { break L1; }
  Words.put64(b, ((int) l3) - 58888, 0L);
  Words.put64(b, ((int) l3) - 58896, 0L);
  Words.put64(b, ((int) l3) - 58904, 0L);
  Core6.f197(m, l3 + 8L, 97830L, 6L, l0, l1);
  if ((b[((int) l3) - 58904] & 0xff) == 1) { break L1; }
  Words.put64(b, ((int) l3) - 58888, 0L);
  Words.put64(b, ((int) l3) - 58896, 0L);
  Words.put64(b, ((int) l3) - 58904, 0L);
  Core6.f197(m, l3 + 8L, 97836L, 6L, l0, l1);
  if ((b[((int) l3) - 58904] & 0xff) == 1) { break L1; }
  Words.put64(b, ((int) l3) - 58888, 0L);
  Words.put64(b, ((int) l3) - 58896, 0L);
  Words.put64(b, ((int) l3) - 58904, 0L);
  Core6.f197(m, l3 + 8L, 97842L, 6L, l0, l1);
  if ((b[((int) l3) - 58904] & 0xff) == 1) { break L1; }
  Words.put64(b, ((int) l3) - 58888, 0L);
  Words.put64(b, ((int) l3) - 58896, 0L);
  Words.put64(b, ((int) l3) - 58904, 0L);
  Core6.f197(m, l3 + 8L, 97848L, 6L, l0, l1);
  if ((b[((int) l3) - 58904] & 0xff) == 1) { break L1; }
  Words.put64(b, ((int) l3) - 58888, 0L);
  Words.put64(b, ((int) l3) - 58896, 0L);
  Words.put64(b, ((int) l3) - 58904, 0L);
  Core6.f197(m, l3 + 8L, 97854L, 6L, l0, l1);
  if ((b[((int) l3) - 58904] & 0xff) == 1) { break L1; }
  Words.put64(b, ((int) l3) - 58888, 0L);
  Words.put64(b, ((int) l3) - 58896, 0L);
  Words.put64(b, ((int) l3) - 58904, 0L);
  Core6.f197(m, l3 + 8L, 97860L, 6L, l0, l1);
  if ((b[((int) l3) - 58904] & 0xff) == 1) { break L1; }
  Words.put64(b, ((int) l3) - 58888, 0L);
  Words.put64(b, ((int) l3) - 58896, 0L);
  Words.put64(b, ((int) l3) - 58904, 0L);
  Core6.f197(m, l3 + 8L, 97866L, 6L, l0, l1);
  if ((b[((int) l3) - 58904] & 0xff) == 1) { break L1; }
  Words.put64(b, ((int) l3) - 58888, 0L);
  Words.put64(b, ((int) l3) - 58896, 0L);
  Words.put64(b, ((int) l3) - 58904, 0L);
  Core6.f197(m, l3 + 8L, 97872L, 6L, l0, l1);
  if ((b[((int) l3) - 58904] & 0xff) == 1) { break L1; }
  Words.put64(b, ((int) l3) - 58888, 0L);
  Words.put64(b, ((int) l3) - 58896, 0L);
  Words.put64(b, ((int) l3) - 58904, 0L);
  Core6.f197(m, l3 + 8L, 97878L, 6L, l0, l1);
  if ((b[((int) l3) - 58904] & 0xff) == 1) { break L1; }
  Words.put64(b, ((int) l3) - 58888, 0L);
  Words.put64(b, ((int) l3) - 58896, 0L);
  Words.put64(b, ((int) l3) - 58904, 0L);
  Core6.f197(m, l3 + 8L, 97884L, 6L, l0, l1);
  if ((b[((int) l3) - 58904] & 0xff) == 1) { break L1; }
  Words.put64(b, ((int) l3) - 58888, 0L);
  Words.put64(b, ((int) l3) - 58896, 0L);
  Words.put64(b, ((int) l3) - 58904, 0L);
  Core6.f197(m, l3 + 8L, 97890L, 6L, l0, l1);
  if ((b[((int) l3) - 58904] & 0xff) == 1) { break L1; }
  Words.put64(b, ((int) l3) - 58888, 0L);
  Words.put64(b, ((int) l3) - 58896, 0L);
  Words.put64(b, ((int) l3) - 58904, 0L);
  Core6.f197(m, l3 + 8L, 97896L, 6L, l0, l1);
  if ((b[((int) l3) - 58904] & 0xff) == 1) { break L1; }
  Words.put64(b, ((int) l3) - 58888, 0L);
  Words.put64(b, ((int) l3) - 58896, 0L);
  Words.put64(b, ((int) l3) - 58904, 0L);
  Core6.f197(m, l3 + 8L, 97902L, 6L, l0, l1);
  if ((b[((int) l3) - 58904] & 0xff) == 1) { break L1; }
  Words.put64(b, ((int) l3) - 58888, 0L);
  Words.put64(b, ((int) l3) - 58896, 0L);
  Words.put64(b, ((int) l3) - 58904, 0L);
  Core6.f197(m, l3 + 8L, 97908L, 6L, l0, l1);
  if ((b[((int) l3) - 58904] & 0xff) == 1) { break L1; }
  Words.put64(b, ((int) l3) - 58888, 0L);
  Words.put64(b, ((int) l3) - 58896, 0L);
  Words.put64(b, ((int) l3) - 58904, 0L);
  Core6.f197(m, l3 + 8L, 97914L, 6L, l0, l1);
  if ((b[((int) l3) - 58904] & 0xff) == 1) { break L1; }
  Words.put64(b, ((int) l3) - 58888, 0L);
  Words.put64(b, ((int) l3) - 58896, 0L);
  Words.put64(b, ((int) l3) - 58904, 0L);
  Core6.f197(m, l3 + 8L, 97920L, 6L, l0, l1);
  if ((b[((int) l3) - 58904] & 0xff) == 1) { break L1; }
  Words.put64(b, ((int) l3) - 58888, 0L);
  Words.put64(b, ((int) l3) - 58896, 0L);
  Words.put64(b, ((int) l3) - 58904, 0L);
  Core6.f197(m, l3 + 8L, 97926L, 6L, l0, l1);
  if ((b[((int) l3) - 58904] & 0xff) == 1) { break L1; }
  Words.put64(b, ((int) l3) - 58888, 0L);
  Words.put64(b, ((int) l3) - 58896, 0L);
  Words.put64(b, ((int) l3) - 58904, 0L);
  Core6.f197(m, l3 + 8L, 97932L, 6L, l0, l1);
  if ((b[((int) l3) - 58904] & 0xff) == 1) { break L1; }
  Words.put64(b, ((int) l3) - 58888, 0L);
  Words.put64(b, ((int) l3) - 58896, 0L);
  Words.put64(b, ((int) l3) - 58904, 0L);
  Core6.f197(m, l3 + 8L, 97938L, 9L, l0, l1);
  l4 = ((b[((int) l3) - 58904] & 0xff) != 1) ? 1 : 0;
 }
 m.g0 = l3 + 32L;
 return l4;
}

static int f224(State m, long l0, long l1) {
 final byte[] b = m.bytes;
 long l2 = 0;
 long l3 = 0;
 long l4 = 0;
 long l5 = 0;
 int l6 = 0;
 int l7 = 0;
 int l8 = 0;
 int l9 = 0;
 L1: {
  if (m.g0 < 16L) { break L1; }
  l2 = l0;
  l3 = l1;
  L2: {
   L3: while (true) {
    if ((l4 = l3) == 0L) { break L2; }
    l7 = (l6 = (int) b[((int) l2) - 58912]) & 255;
    l5 = 1L;
    L4: {
     if (l6 > -1) { break L4; }
     l8 = (b[((int) l2) - 58911] & 0xff) & 63;
     L5: {
      if (l6 + Integer.MIN_VALUE > 2147483615) { break L5; }
      l7 = ((l7 << 6) & 1984) | l8;
      l5 = 2L;
      break L4;
     }
     l9 = (b[((int) l2) - 58910] & 0xff) & 63;
     L6: {
      if (l6 + Integer.MIN_VALUE > 2147483631) { break L6; }
      l7 = ((l8 << 6) | ((l7 << 12) & 61440)) | l9;
      l5 = 3L;
      break L4;
     }
     l7 = ((l9 << 6) | ((l8 << 12) | ((l7 << 18) & 1835008))) | ((b[((int) l2) - 58909] & 0xff) & 63);
     l5 = 4L;
    }
    l3 = l4 - l5;
    l2 = l2 + l5;
    if ((l7 + -48) + Integer.MIN_VALUE < -2147483638) { continue L3; }
    if ((l7 + -65296) + Integer.MIN_VALUE < -2147483638) { continue L3; }
    break L3;
   }
  }
  l7 = 0;
  L7: {
   if (l1 == l4) { break L7; }
   L8: {
    L9: {
     if ((l6 = (int) b[((int) l0) - 58912]) <= -1) { break L9; }
     l2 = 1L;
     break L8;
    }
    L10: {
     if (l6 + Integer.MIN_VALUE >= 2147483616) { break L10; }
     l2 = 2L;
     break L8;
    }
    l2 = (l6 + Integer.MIN_VALUE < 2147483632) ? 3L : 4L;
   }
   if (l1 == (l5 = l4 + l2)) { break L7; }
   L11: {
    L12: {
     if ((l6 = (int) b[((int) (l4 = l0 + l2)) - 58912]) <= -1) { break L12; }
     l2 = 1L;
     break L11;
    }
    L13: {
     if (l6 + Integer.MIN_VALUE >= 2147483616) { break L13; }
     l2 = 2L;
     break L11;
    }
    l2 = (l6 + Integer.MIN_VALUE < 2147483632) ? 3L : 4L;
   }
   if (l1 == (l5 = l5 + l2)) { break L7; }
   L14: {
    L15: {
     if ((l7 = (int) b[((int) (l4 + l2)) - 58912]) <= -1) { break L15; }
     l2 = 1L;
     break L14;
    }
    L16: {
     if (l7 + Integer.MIN_VALUE >= 2147483616) { break L16; }
     l2 = 2L;
     break L14;
    }
    l2 = (l7 + Integer.MIN_VALUE < 2147483632) ? 3L : 4L;
   }
   l7 = (l1 == (l5 + l2)) ? 1 : 0;
  }
  final int t17 = l7;
  return t17;
 }
 throw State.trap();
}

static void f225(State m, long l0, long l1, long l2) {
 final byte[] b = m.bytes;
 long l3 = 0;
 long l4 = 0;
 long l5 = 0;
 int l6 = 0;
 L1: {
  if ((l3 = m.g0) < 16L) { break L1; }
  L2: {
   L3: {
    if (Core5.f157(m, 97496L, 1L, 86088L, 1L, l1, l2) == 0) { break L3; }
    L4: {
     if (!(l2 == 0L)) { break L4; }
     l2 = 0L;
     break L2;
    }
    L5: {
     L6: {
      if ((l6 = (int) b[((int) l1) - 58912]) <= -1) { break L6; }
      l4 = 1L;
      break L5;
     }
     L7: {
      if (l6 + Integer.MIN_VALUE >= 2147483616) { break L7; }
      l4 = 2L;
      break L5;
     }
     l4 = (l6 + Integer.MIN_VALUE < 2147483632) ? 3L : 4L;
    }
    l1 = l1 + l4;
    L8: {
     if (l2 != l4) { break L8; }
     l2 = 0L;
     break L2;
    }
    L9: {
     L10: {
      if ((l6 = (int) b[((int) l1) - 58912]) <= -1) { break L10; }
      l5 = 1L;
      break L9;
     }
     L11: {
      if (l6 + Integer.MIN_VALUE >= 2147483616) { break L11; }
      l5 = 2L;
      break L9;
     }
     l5 = (l6 + Integer.MIN_VALUE < 2147483632) ? 3L : 4L;
    }
    l1 = l1 + l5;
    l2 = l2 - (l4 + l5);
    break L2;
   }
   if (f226(m, l1, l2) == 0) { break L2; }
   L12: {
    if (!(l2 == 0L)) { break L12; }
    l2 = 0L;
    break L2;
   }
   L13: {
    L14: {
     if ((l6 = (int) b[((int) l1) - 58912]) <= -1) { break L14; }
     l4 = 1L;
     break L13;
    }
    L15: {
     if (l6 + Integer.MIN_VALUE >= 2147483616) { break L15; }
     l4 = 2L;
     break L13;
    }
    l4 = (l6 + Integer.MIN_VALUE < 2147483632) ? 3L : 4L;
   }
   l2 = l2 - l4;
   l1 = l1 + l4;
  }
  Words.put64(b, ((int) l0) - 58904, l2);
  Words.put64(b, ((int) l0) - 58912, l1);
  m.g0 = l3;
  return;
 }
 throw State.trap();
}

static int f226(State m, long l0, long l1) {
 final byte[] b = m.bytes;
 int l2 = 0;
 int l3 = 0;
 int l4 = 0;
 int l5 = 0;
 L1: {
  if (m.g0 < 16L) { break L1; }
  L2: {
   if (!(l1 == 0L)) { break L2; }
   return 0;
  }
  l4 = l3 = (l2 = (int) b[((int) l0) - 58912]) & 255;
  L3: {
   if (l2 > -1) { break L3; }
   l4 = (b[((int) l0) - 58911] & 0xff) & 63;
   L4: {
    if (l2 + Integer.MIN_VALUE > 2147483615) { break L4; }
    l4 = ((l3 << 6) & 1984) | l4;
    break L3;
   }
   l5 = (b[((int) l0) - 58910] & 0xff) & 63;
   L5: {
    if (l2 + Integer.MIN_VALUE > 2147483631) { break L5; }
    l4 = ((l4 << 6) | ((l3 << 12) & 61440)) | l5;
    break L3;
   }
   l4 = ((l5 << 6) | ((l4 << 12) | ((l3 << 18) & 1835008))) | ((b[((int) l0) - 58909] & 0xff) & 63);
  }
  l5 = 1;
  L6: {
   if (l4 == 45) { break L6; }
   if (l4 == 8722) { break L6; }
   if (l4 == 65293) { break L6; }
   L7: {
    if (l2 <= -1) { break L7; }
    return 0;
   }
   l5 = 0;
   if (l2 + Integer.MIN_VALUE < 2147483616) { break L6; }
   l4 = (b[((int) l0) - 58911] & 0xff) & 63;
   l5 = (b[((int) l0) - 58910] & 0xff) & 63;
   L8: {
    L9: {
     if (l2 + Integer.MIN_VALUE > 2147483631) { break L9; }
     l4 = ((l4 << 6) | ((l3 << 12) & 61440)) | l5;
     break L8;
    }
    l4 = ((l5 << 6) | ((l4 << 12) | ((l3 << 18) & 1835008))) | ((b[((int) l0) - 58909] & 0xff) & 63);
   }
   l5 = ((l4 == 36127) | (l4 == 36000)) ? 1 : 0;
  }
  final int t10 = l5;
  return t10;
 }
 throw State.trap();
}

static void f227(State m, long l0, long l1, long l2, long l3) {
 final byte[] b = m.bytes;
 long l4 = 0;
 long l5 = 0;
 long l6 = 0;
 long l7 = 0;
 long l8 = 0;
 long l9 = 0;
 long l10 = 0;
 long l11 = 0;
 int l12 = 0;
 m.g0 = l4 = m.g0 - 48L;
 L1: {
  if ((l4 = l4) < 16L) { break L1; }
  L2: {
   if ((b[((int) l1) - 58912] & 0xff) != 1) { break L2; }
   l5 = Words.get64(b, ((int) (l1 + 136L)) - 58912);
   l6 = Words.get64(b, ((int) (l1 + 64L)) - 58912);
   l7 = Words.get64(b, ((int) (l1 + 48L)) - 58912);
   l8 = Words.get64(b, ((int) (l1 + 40L)) - 58912);
   l9 = Words.get64(b, ((int) (l1 + 32L)) - 58912);
   l2 = Words.get64(b, ((int) (l1 + 16L)) - 58912);
   l3 = l10 = Words.get64(b, ((int) (l1 + 24L)) - 58912);
   L3: {
    L4: {
     switch (b[((int) (l1 + 8L)) - 58912] & 0xff) {
     case 1: break L3;
     case 2: break L2;
     default: break L4;
     }
    }
    L5: {
     if (((b[((int) (l1 + 160L)) - 58912] & 0xff) & 255) != 1) { break L5; }
     l3 = Words.get64(b, ((int) (l1 + 208L)) - 58912);
     l2 = Words.get64(b, ((int) (l1 + 200L)) - 58912);
     break L2;
    }
    l3 = Words.get64(b, ((int) (l1 + 72L)) - 58912);
    l11 = l2 & 255L;
    l2 = l6;
    L6: {
     L7: {
      switch ((int) l11) {
      case 1: break L7;
      case 2: break L6;
      default: break L2;
      }
     }
     l2 = l9;
     l3 = l8;
     break L2;
    }
    l2 = Words.get64(b, ((int) (l1 + 128L)) - 58912);
    L8: {
     L9: {
      L10: {
       L11: {
        switch ((int) (l10 & 255L)) {
        case 1: break L10;
        case 2: break L9;
        case 3: break L8;
        default: break L11;
        }
       }
       l2 = l8;
       l3 = l7;
       break L2;
      }
      l3 = l5;
      break L2;
     }
     l1 = Words.get64(b, ((int) (l1 + 120L)) - 58912);
     Words.put64(b, ((int) l4) - 58872, 0L);
     Words.put64(b, ((int) l4) - 58880, 0L);
     Words.put64(b, ((int) l4) - 58888, 0L);
     Words.put64(b, ((int) l4) - 58896, 0L);
     Words.put64(b, ((int) l4) - 58904, 0L);
     Core6.f193(m, l4 + 8L, l1, l2);
     final long t12 = Words.get64(b, ((int) l4) - 58872);
     final long t13 = l2;
     final int t14 = l12 = ((b[((int) l4) - 58904] & 0xff) == 1) ? 1 : 0;
     l3 = t14 != 0 ? t12 : t13;
     final long t15 = Words.get64(b, ((int) l4) - 58880);
     final long t16 = l1;
     final int t17 = l12;
     l2 = t17 != 0 ? t15 : t16;
     break L2;
    }
    Words.put64(b, ((int) l4) - 58872, 0L);
    Words.put64(b, ((int) l4) - 58880, 0L);
    Words.put64(b, ((int) l4) - 58888, 0L);
    Words.put64(b, ((int) l4) - 58896, 0L);
    Words.put64(b, ((int) l4) - 58904, 0L);
    Core6.f193(m, l4 + 8L, l9, l8);
    final long t18 = Words.get64(b, ((int) l4) - 58872);
    final long t19 = l8;
    final int t20 = l12 = ((b[((int) l4) - 58904] & 0xff) == 1) ? 1 : 0;
    l3 = t20 != 0 ? t18 : t19;
    final long t21 = Words.get64(b, ((int) l4) - 58880);
    final long t22 = l9;
    final int t23 = l12;
    l2 = t23 != 0 ? t21 : t22;
    break L2;
   }
   L24: {
    if (((b[((int) (l1 + 176L)) - 58912] & 0xff) & 255) != 1) { break L24; }
    l3 = Words.get64(b, ((int) (l1 + 224L)) - 58912);
    l2 = Words.get64(b, ((int) (l1 + 216L)) - 58912);
    break L2;
   }
   l3 = Words.get64(b, ((int) (l1 + 88L)) - 58912);
   l2 = Words.get64(b, ((int) (l1 + 80L)) - 58912);
   l10 = Words.get64(b, ((int) (l1 + 56L)) - 58912);
   L25: {
    L26: {
     switch ((int) (l9 & 255L)) {
     case 1: break L26;
     case 2: break L25;
     default: break L2;
     }
    }
    l2 = l7;
    l3 = l10;
    break L2;
   }
   l2 = Words.get64(b, ((int) (l1 + 144L)) - 58912);
   L27: {
    L28: {
     L29: {
      L30: {
       switch ((int) (l8 & 255L)) {
       case 1: break L29;
       case 2: break L28;
       case 3: break L27;
       default: break L30;
       }
      }
      l2 = l10;
      l3 = l6;
      break L2;
     }
     l3 = Words.get64(b, ((int) (l1 + 152L)) - 58912);
     break L2;
    }
    Words.put64(b, ((int) l4) - 58872, 0L);
    Words.put64(b, ((int) l4) - 58880, 0L);
    Words.put64(b, ((int) l4) - 58888, 0L);
    Words.put64(b, ((int) l4) - 58896, 0L);
    Words.put64(b, ((int) l4) - 58904, 0L);
    Core6.f193(m, l4 + 8L, l5, l2);
    final long t31 = Words.get64(b, ((int) l4) - 58872);
    final long t32 = l2;
    final int t33 = l12 = ((b[((int) l4) - 58904] & 0xff) == 1) ? 1 : 0;
    l3 = t33 != 0 ? t31 : t32;
    final long t34 = Words.get64(b, ((int) l4) - 58880);
    final long t35 = l5;
    final int t36 = l12;
    l2 = t36 != 0 ? t34 : t35;
    break L2;
   }
   Words.put64(b, ((int) l4) - 58872, 0L);
   Words.put64(b, ((int) l4) - 58880, 0L);
   Words.put64(b, ((int) l4) - 58888, 0L);
   Words.put64(b, ((int) l4) - 58896, 0L);
   Words.put64(b, ((int) l4) - 58904, 0L);
   Core6.f193(m, l4 + 8L, l7, l10);
   final long t37 = Words.get64(b, ((int) l4) - 58872);
   final long t38 = l10;
   final int t39 = l12 = ((b[((int) l4) - 58904] & 0xff) == 1) ? 1 : 0;
   l3 = t39 != 0 ? t37 : t38;
   final long t40 = Words.get64(b, ((int) l4) - 58880);
   final long t41 = l7;
   final int t42 = l12;
   l2 = t42 != 0 ? t40 : t41;
  }
  Words.put64(b, ((int) l0) - 58904, l3);
  Words.put64(b, ((int) l0) - 58912, l2);
  m.g0 = l4 + 48L;
  return;
 }
 throw State.trap();
}

static void f228(State m, long l0, int l1, long l2, long l3) {
 final byte[] b = m.bytes;
 long l4 = 0;
 long l5 = 0;
 long l6 = 0;
 long l7 = 0;
 int l8 = 0;
 int l9 = 0;
 int l10 = 0;
 int l11 = 0;
 m.g0 = l4 = m.g0 - 16L;
 L1: {
  L2: {
   L3: {
    L4: {
     L5: {
      L6: {
       L7: {
        L8: {
         if ((l5 = l4) < 16L) { break L8; }
         L9: {
          if ((l1 & 255) + Integer.MIN_VALUE >= -2147483643) { break L9; }
          l4 = l2;
          l6 = l3;
          break L2;
         }
         l8 = 0;
         if (l3 == 0L) { break L1; }
         L10: while (true) {
          L11: {
           L12: {
            if ((l1 = b[((int) l2) - 58912] & 0xff) + Integer.MIN_VALUE > -2147483616) { break L12; }
            if (((1L << (l1 & 0xffffffffL)) & 4294983168L) == 0L) { break L12; }
            l4 = 1L;
            break L11;
           }
           L13: {
            L14: {
             L15: {
              if (l1 == 194) { break L15; }
              if (l3 + Long.MIN_VALUE < -9223372036854775805L) { break L14; }
              if (((l1 + 28) & 255) + Integer.MIN_VALUE < -2147483395) { break L14; }
              l9 = b[((int) (l2 + 1L)) - 58912] & 0xff;
              l11 = (int) (byte) (l10 = b[((int) (l2 + 2L)) - 58912] & 0xff);
              if (l1 != 226) { break L13; }
              if ((l9 & 255) != 128) { break L13; }
              l4 = 3L;
              if (l11 < -117) { break L11; }
              if ((l1 = l10 + -168) + Integer.MIN_VALUE > -2147483641) { break L7; }
              if (((1 << l1) & 131) == 0) { break L7; }
              break L11;
             }
             l7 = 1L;
             l1 = b[((int) l2) - 58911] & 0xff;
             L16: {
              if (l3 != 1L) { break L16; }
              l11 = l1 & 63;
              l1 = 194;
              break L5;
             }
             l4 = 2L;
             if (l1 == 133) { break L11; }
             if (l1 == 160) { break L11; }
            }
            if (l3 + Long.MIN_VALUE >= -9223372036854775805L) { break L7; }
            l9 = b[((int) l2) - 58912] & 0xff;
            break L6;
           }
           L17: {
            L18: {
             L19: {
              L20: {
               switch (l1 + -225) {
               case 1: break L19;
               case 2: break L18;
               default: break L20;
               }
              }
              if ((l9 & 255) != 154) { break L7; }
              if (l11 != -128) { break L7; }
              break L17;
             }
             if ((l9 & 255) != 129) { break L7; }
             if (l11 == -97) { break L17; }
             break L7;
            }
            if ((l9 & 255) != 128) { break L7; }
            if (l11 != -128) { break L7; }
           }
           l4 = 3L;
          }
          l2 = l2 + l4;
          if (!((l3 = l3 - l4) == 0L)) { continue L10; }
          break L1;
         }
        }
        throw State.trap();
       }
       if (((l9 = b[((int) l2) - 58912] & 0xff) & 240) != 224) { break L6; }
       l1 = (((b[((int) l2) - 58910] & 0xff) + ((b[((int) l2) - 58911] & 0xff) << 6)) + (l9 << 12)) + -925824;
       l6 = l3 + -3L;
       l4 = l2 + 3L;
       l7 = l3;
       break L3;
      }
      l1 = l9 & 255;
      l4 = 1L;
      L21: {
       if (((int) (byte) l9) > -1) { break L21; }
       l11 = (b[((int) l2) - 58911] & 0xff) & 63;
       L22: {
        if ((l9 & 255) + Integer.MIN_VALUE > -2147483425) { break L22; }
        l7 = l3;
        break L5;
       }
       l10 = (b[((int) l2) - 58910] & 0xff) & 63;
       L23: {
        if ((l9 & 255) + Integer.MIN_VALUE > -2147483409) { break L23; }
        l1 = ((l11 << 6) | ((l1 << 12) & 61440)) | l10;
        l4 = 3L;
        break L21;
       }
       l1 = ((l10 << 6) | ((l11 << 12) | ((l1 << 18) & 1835008))) | ((b[((int) l2) - 58909] & 0xff) & 63);
       l4 = 4L;
      }
      l7 = l3;
      break L4;
     }
     l1 = ((l1 << 6) & 1984) | l11;
     l4 = 2L;
    }
    l6 = l7 - l4;
    l4 = l2 + l4;
   }
   if (l1 == 27491) { break L2; }
   if (l1 == 36000) { break L2; }
   if (l1 == 36127) { break L2; }
   l4 = l2;
   l6 = l7;
  }
  l8 = 0;
  if (l6 == 0L) { break L1; }
  L24: while (true) {
   l1 = (l9 = (int) b[((int) l4) - 58912]) & 255;
   l2 = 1L;
   L25: {
    if (l9 > -1) { break L25; }
    l11 = (b[((int) l4) - 58911] & 0xff) & 63;
    L26: {
     if (l9 + Integer.MIN_VALUE > 2147483615) { break L26; }
     l1 = ((l1 << 6) & 1984) | l11;
     l2 = 2L;
     break L25;
    }
    l10 = (b[((int) l4) - 58910] & 0xff) & 63;
    L27: {
     if (l9 + Integer.MIN_VALUE > 2147483631) { break L27; }
     l1 = ((l11 << 6) | ((l1 << 12) & 61440)) | l10;
     l2 = 3L;
     break L25;
    }
    l1 = ((l10 << 6) | ((l11 << 12) | ((l1 << 18) & 1835008))) | ((b[((int) l4) - 58909] & 0xff) & 63);
    l2 = 4L;
   }
   Core2.f63(m, l5 + 8L, l1);
   L28: {
    if ((b[((int) l5) - 58904] & 0xff) == 1) { break L28; }
    L29: {
     if (l1 + Integer.MIN_VALUE > -2147483521) { break L29; }
     if ((l1 + -9) + Integer.MIN_VALUE < -2147483643) { break L28; }
     if (l1 == 32) { break L28; }
     l8 = 1;
     break L1;
    }
    if (l1 == 12288) { break L28; }
    if (l1 == 8287) { break L28; }
    if (l1 == 8239) { break L28; }
    if ((l1 & 2097150) == 8232) { break L28; }
    if ((l1 + -8192) + Integer.MIN_VALUE < -2147483637) { break L28; }
    if (l1 == 5760) { break L28; }
    if (l1 == 133) { break L28; }
    if (l1 == 160) { break L28; }
    l8 = 1;
    break L1;
   }
   l4 = l4 + l2;
   if ((l6 = l6 - l2) != 0L) { continue L24; }
   break L24;
  }
 }
 b[((int) l0) - 58911] = (byte) l8;
 b[((int) l0) - 58912] = (byte) l8;
 m.g0 = l5 + 16L;
}

static void f229(State m, long l0, int l1, int l2, int l3, long l4, long l5) {
 final byte[] b = m.bytes;
 long l6 = 0;
 long l7 = 0;
 long l8 = 0;
 long l9 = 0;
 long l10 = 0;
 long l11 = 0;
 long l12 = 0;
 int l13 = 0;
 int l14 = 0;
 int l15 = 0;
 int l16 = 0;
 m.g0 = l6 = m.g0 - 32L;
 L1: {
  L2: {
   L3: {
    L4: {
     L5: {
      L6: {
       L7: {
        L8: {
         L9: {
          L10: {
           L11: {
            L12: {
             L13: {
              L14: {
               L15: {
                L16: {
                 L17: {
                  L18: {
                   if ((l7 = l6) < 16L) { break L18; }
                   if ((l2 & 255) != 0) { break L17; }
                   l8 = 0L;
                   Words.put64(b, ((int) l7) - 58888, 0L);
                   Words.put64(b, ((int) l7) - 58896, 0L);
                   Words.put64(b, ((int) l7) - 58904, 0L);
                   Words.put64(b, ((int) l7) - 58912, 0L);
                   l6 = l4;
                   l9 = l5;
                   if ((l1 & 255) + Integer.MIN_VALUE < -2147483643) { break L10; }
                   l9 = 0L;
                   L19: {
                    if (!(l5 == 0L)) { break L19; }
                    l8 = 0L;
                    l6 = l4;
                    break L10;
                   }
                   l10 = 1L;
                   l8 = l5;
                   l6 = l4;
                   L20: while (true) {
                    L21: {
                     L22: {
                      if ((l13 = b[((int) l6) - 58912] & 0xff) + Integer.MIN_VALUE > -2147483616) { break L22; }
                      l9 = 1L;
                      if (((1L << (l13 & 0xffffffffL)) & 4294983168L) != 0L) { break L21; }
                     }
                     L23: {
                      if (l13 != 194) { break L23; }
                      l9 = 1L;
                      l13 = b[((int) l6) - 58911] & 0xff;
                      L24: {
                       if (l8 != 1L) { break L24; }
                       l14 = l13 & 63;
                       l13 = 194;
                       break L13;
                      }
                      l9 = 2L;
                      if (l13 == 133) { break L21; }
                      if (l13 == 160) { break L21; }
                      break L16;
                     }
                     if (l8 + Long.MIN_VALUE < -9223372036854775805L) { break L16; }
                     if (((l13 + 28) & 255) + Integer.MIN_VALUE < -2147483395) { break L16; }
                     l3 = b[((int) (l6 + 1L)) - 58912] & 0xff;
                     l14 = (int) (byte) (l15 = b[((int) (l6 + 2L)) - 58912] & 0xff);
                     L25: {
                      if (l13 != 226) { break L25; }
                      if ((l3 & 255) != 128) { break L25; }
                      l9 = 3L;
                      if (l14 < -117) { break L21; }
                      if ((l13 = l15 + -168) + Integer.MIN_VALUE > -2147483641) { break L15; }
                      if (((1 << l13) & 131) == 0) { break L15; }
                      break L21;
                     }
                     L26: {
                      L27: {
                       L28: {
                        L29: {
                         switch (l13 + -225) {
                         case 1: break L28;
                         case 2: break L27;
                         default: break L29;
                         }
                        }
                        if ((l3 & 255) != 154) { break L15; }
                        if (l14 != -128) { break L15; }
                        break L26;
                       }
                       if ((l3 & 255) != 129) { break L15; }
                       if (l14 == -97) { break L26; }
                       break L15;
                      }
                      if ((l3 & 255) != 128) { break L15; }
                      if (l14 != -128) { break L15; }
                     }
                     l9 = 3L;
                    }
                    l10 = l10 + 1L;
                    l6 = l6 + l9;
                    if (!((l8 = l8 - l9) == 0L)) { continue L20; }
                    break L20;
                   }
                   l8 = l10 + -1L;
                   l9 = 0L;
                   break L10;
                  }
                  throw State.trap();
                 }
                 l8 = 0L;
                 Words.put64(b, ((int) l7) - 58888, 0L);
                 Words.put64(b, ((int) l7) - 58896, 0L);
                 Words.put64(b, ((int) l7) - 58904, 0L);
                 Words.put64(b, ((int) l7) - 58912, 0L);
                 l6 = l4;
                 l9 = l5;
                 L30: {
                  L31: {
                   L32: {
                    L33: {
                     if ((l1 & 255) + Integer.MIN_VALUE < -2147483643) { break L33; }
                     l9 = 0L;
                     L34: {
                      if (!(l5 == 0L)) { break L34; }
                      l8 = 0L;
                      l6 = l4;
                      break L33;
                     }
                     l10 = 1L;
                     l8 = l5;
                     l6 = l4;
                     L35: {
                      L36: {
                       L37: {
                        L38: {
                         L39: {
                          L40: {
                           L41: while (true) {
                            L42: {
                             L43: {
                              if ((l13 = b[((int) l6) - 58912] & 0xff) + Integer.MIN_VALUE > -2147483616) { break L43; }
                              l9 = 1L;
                              if (((1L << (l13 & 0xffffffffL)) & 4294983168L) != 0L) { break L42; }
                             }
                             L44: {
                              if (l13 != 194) { break L44; }
                              l9 = 1L;
                              l13 = b[((int) l6) - 58911] & 0xff;
                              L45: {
                               if (l8 != 1L) { break L45; }
                               l15 = l13 & 63;
                               l13 = 194;
                               break L37;
                              }
                              l9 = 2L;
                              if (l13 == 133) { break L42; }
                              if (l13 == 160) { break L42; }
                              break L40;
                             }
                             if (l8 + Long.MIN_VALUE < -9223372036854775805L) { break L40; }
                             if (((l13 + 28) & 255) + Integer.MIN_VALUE < -2147483395) { break L40; }
                             l14 = b[((int) (l6 + 1L)) - 58912] & 0xff;
                             l15 = (int) (byte) (l16 = b[((int) (l6 + 2L)) - 58912] & 0xff);
                             L46: {
                              if (l13 != 226) { break L46; }
                              if ((l14 & 255) != 128) { break L46; }
                              l9 = 3L;
                              if (l15 < -117) { break L42; }
                              if ((l13 = l16 + -168) + Integer.MIN_VALUE > -2147483641) { break L39; }
                              if (((1 << l13) & 131) == 0) { break L39; }
                              break L42;
                             }
                             L47: {
                              L48: {
                               L49: {
                                L50: {
                                 switch (l13 + -225) {
                                 case 1: break L49;
                                 case 2: break L48;
                                 default: break L50;
                                 }
                                }
                                if ((l14 & 255) != 154) { break L39; }
                                if (l15 != -128) { break L39; }
                                break L47;
                               }
                               if ((l14 & 255) != 129) { break L39; }
                               if (l15 == -97) { break L47; }
                               break L39;
                              }
                              if ((l14 & 255) != 128) { break L39; }
                              if (l15 != -128) { break L39; }
                             }
                             l9 = 3L;
                            }
                            l10 = l10 + 1L;
                            l6 = l6 + l9;
                            if (!((l8 = l8 - l9) == 0L)) { continue L41; }
                            break L41;
                           }
                           l8 = l10 + -1L;
                           l9 = 0L;
                           break L33;
                          }
                          if (l8 + Long.MIN_VALUE >= -9223372036854775805L) { break L39; }
                          l14 = b[((int) l6) - 58912] & 0xff;
                          break L38;
                         }
                         if (((l14 = b[((int) l6) - 58912] & 0xff) & 240) != 224) { break L38; }
                         l13 = (((b[((int) l6) - 58910] & 0xff) + ((b[((int) l6) - 58911] & 0xff) << 6)) + (l14 << 12)) + -925824;
                         l11 = l8 + -3L;
                         l12 = l6 + 3L;
                         l9 = l8;
                         break L35;
                        }
                        l13 = l14 & 255;
                        l12 = 1L;
                        L51: {
                         if (((int) (byte) l14) > -1) { break L51; }
                         l15 = (b[((int) l6) - 58911] & 0xff) & 63;
                         L52: {
                          if ((l14 & 255) + Integer.MIN_VALUE > -2147483425) { break L52; }
                          l9 = l8;
                          break L37;
                         }
                         l16 = (b[((int) l6) - 58910] & 0xff) & 63;
                         L53: {
                          if ((l14 & 255) + Integer.MIN_VALUE > -2147483409) { break L53; }
                          l13 = ((l15 << 6) | ((l13 << 12) & 61440)) | l16;
                          l12 = 3L;
                          break L51;
                         }
                         l13 = ((l16 << 6) | ((l15 << 12) | ((l13 << 18) & 1835008))) | ((b[((int) l6) - 58909] & 0xff) & 63);
                         l12 = 4L;
                        }
                        l9 = l8;
                        break L36;
                       }
                       l13 = ((l13 << 6) & 1984) | l15;
                       l12 = 2L;
                      }
                      l11 = l9 - l12;
                      l12 = l6 + l12;
                     }
                     L54: {
                      if (l13 != 27491) { break L54; }
                      l14 = 0;
                      break L31;
                     }
                     if (l13 == 36000) { break L32; }
                     if (l13 == 36127) { break L32; }
                     l8 = l10 + -1L;
                    }
                    Core2.f38(m, l7, l3, l8, l6, l9);
                    l13 = 2;
                    l14 = 0;
                    break L30;
                   }
                   l14 = 1;
                  }
                  Core2.f38(m, l7, l3, l10, l12, l11);
                  l13 = l14 != 0 ? 3 : 2;
                 }
                 l9 = Words.get64(b, ((int) l7) - 58888);
                 l6 = Words.get64(b, ((int) l7) - 58896);
                 L55: {
                  if ((b[((int) l7) - 58912] & 0xff) != 0) { break L55; }
                  final int t56 = (l6 + Long.MIN_VALUE > Words.get64(b, ((int) (l8 = (((l1 & 0xffffffffL) & 255L) << 5L) + (l14 != 0 ? 67904L : 67888L))) - 58912) + Long.MIN_VALUE) ? 1 : 0;
                  final int t57 = (l9 + Long.MIN_VALUE > (l6 = Words.get64(b, ((int) l8) - 58904)) + Long.MIN_VALUE) ? 1 : 0;
                  final int t58 = (l9 == l6) ? 1 : 0;
                  if ((t58 != 0 ? t56 : t57) != 0) { break L6; }
                  l6 = l14 & 0xffffffffL;
                  break L4;
                 }
                 final int t59 = l13;
                 final int t60 = l1 = b[((int) l7) - 58904] & 0xff;
                 final int t61 = l1 = (l1 == 2) ? 1 : 0;
                 l13 = t61 != 0 ? t59 : t60;
                 l6 = l1 != 0 ? 0L : l6;
                 break L2;
                }
                if (l8 + Long.MIN_VALUE >= -9223372036854775805L) { break L15; }
                l3 = b[((int) l6) - 58912] & 0xff;
                break L14;
               }
               if (((l3 = b[((int) l6) - 58912] & 0xff) & 240) != 224) { break L14; }
               l13 = (((b[((int) l6) - 58910] & 0xff) + ((b[((int) l6) - 58911] & 0xff) << 6)) + (l3 << 12)) + -925824;
               l11 = l8 + -3L;
               l12 = l6 + 3L;
               l9 = l8;
               break L11;
              }
              l13 = l3 & 255;
              l12 = 1L;
              L62: {
               if (((int) (byte) l3) > -1) { break L62; }
               l14 = (b[((int) l6) - 58911] & 0xff) & 63;
               L63: {
                if ((l3 & 255) + Integer.MIN_VALUE > -2147483425) { break L63; }
                l9 = l8;
                break L13;
               }
               l15 = (b[((int) l6) - 58910] & 0xff) & 63;
               L64: {
                if ((l3 & 255) + Integer.MIN_VALUE > -2147483409) { break L64; }
                l13 = ((l14 << 6) | ((l13 << 12) & 61440)) | l15;
                l12 = 3L;
                break L62;
               }
               l13 = ((l15 << 6) | ((l14 << 12) | ((l13 << 18) & 1835008))) | ((b[((int) l6) - 58909] & 0xff) & 63);
               l12 = 4L;
              }
              l9 = l8;
              break L12;
             }
             l13 = ((l13 << 6) & 1984) | l14;
             l12 = 2L;
            }
            l11 = l9 - l12;
            l12 = l6 + l12;
           }
           L65: {
            if (l13 != 27491) { break L65; }
            l3 = 0;
            break L8;
           }
           if (l13 == 36000) { break L9; }
           if (l13 == 36127) { break L9; }
           l8 = l10 + -1L;
          }
          Core2.f39(m, l7, l8, l6, l9);
          l13 = 2;
          l3 = 0;
          break L7;
         }
         l3 = 1;
        }
        Core2.f39(m, l7, l10, l12, l11);
        l13 = l3 != 0 ? 3 : 2;
       }
       l9 = Words.get64(b, ((int) l7) - 58888);
       l6 = Words.get64(b, ((int) l7) - 58896);
       if ((b[((int) l7) - 58912] & 0xff) != 0) { break L3; }
       final int t66 = (l6 + Long.MIN_VALUE > Words.get64(b, ((int) (l8 = (((l1 & 0xffffffffL) & 255L) << 5L) + (l3 != 0 ? 67904L : 67888L))) - 58912) + Long.MIN_VALUE) ? 1 : 0;
       final int t67 = (l9 + Long.MIN_VALUE > (l6 = Words.get64(b, ((int) l8) - 58904)) + Long.MIN_VALUE) ? 1 : 0;
       final int t68 = (l9 == l6) ? 1 : 0;
       if ((t68 != 0 ? t66 : t67) == 0) { break L5; }
      }
      l1 = 1;
      l6 = 0L;
      break L1;
     }
     l6 = l3 & 0xffffffffL;
    }
    l1 = 0;
    l13 = 0;
    break L1;
   }
   final int t69 = l13;
   final int t70 = l1 = b[((int) l7) - 58904] & 0xff;
   final int t71 = l1 = (l1 == 2) ? 1 : 0;
   l13 = t71 != 0 ? t69 : t70;
   l6 = l1 != 0 ? 0L : l6;
  }
  l1 = 1;
 }
 L72: {
  L73: {
   if (l1 != 0) { break L73; }
   l13 = 0;
   break L72;
  }
  L74: {
   if ((l2 & 255) == 0) { break L74; }
   l13 = f230(m, l4, l5, l13, l6) & 255;
   break L72;
  }
  l13 = 33620992 >>> (l13 << 3);
 }
 b[((int) l0) - 58911] = (byte) l13;
 b[((int) l0) - 58912] = (byte) l1;
 m.g0 = l7 + 32L;
}

static int f230(State m, long l0, long l1, int l2, long l3) {
 final byte[] b = m.bytes;
 long l4 = 0;
 long l5 = 0;
 long l6 = 0;
 int l7 = 0;
 int l8 = 0;
 int l9 = 0;
 m.g0 = l4 = m.g0 - 80L;
 L1: {
  L2: {
   L3: {
    if ((l5 = l4) < 16L) { break L3; }
    L4: {
     L5: {
      L6: {
       switch ((int) ((l2 & 0xffffffffL) & 255L)) {
       case 1: break L6;
       case 2: break L5;
       case 3: break L4;
       default: break L1;
       }
      }
      l4 = 0L;
      L7: {
       if (l3 + Long.MIN_VALUE < -9223372036854775792L) { break L7; }
       Core1.f25(m, l5, l0, l1, l3);
       l3 = Words.get64(b, ((int) l5) - 58904);
       l4 = Words.get64(b, ((int) l5) - 58912);
      }
      L8: {
       if (l3 + Long.MIN_VALUE < -9223372036854775805L) { break L8; }
       L9: while (true) {
        if ((l1 - l4) + Long.MIN_VALUE < -9223372036854775800L) { break L8; }
        L10: {
         L11: {
          if (((l6 = Words.get64(b, ((int) (l0 + l4)) - 58912)) & 67553998437089520L) != 63050398541283552L) { break L11; }
          l3 = l3 + -3L;
          l4 = l4 + 9L;
          break L10;
         }
         if (l3 + Long.MIN_VALUE < -9223372036854775800L) { break L8; }
         if ((l6 & -9187201950435737472L) != 0L) { break L8; }
         l3 = l3 + -8L;
         l4 = l4 + 8L;
        }
        if (l3 + Long.MIN_VALUE > -9223372036854775806L) { continue L9; }
        break L9;
       }
      }
      L12: {
       if (l3 == 0L) { break L12; }
       if (l1 + Long.MIN_VALUE <= l4 + Long.MIN_VALUE) { break L12; }
       l3 = l3 + -1L;
       L13: while (true) {
        l4 = Words.get64(b, ((int) (((((b[((int) (l0 + l4)) - 58912] & 0xff) >>> 1) & 0xffffffffL) & 120L) + 66680L)) - 58912) + l4;
        if (l3 == 0L) { break L12; }
        l3 = l3 + -1L;
        if (l1 + Long.MIN_VALUE > l4 + Long.MIN_VALUE) { continue L13; }
        break L13;
       }
      }
      Words.put64(b, ((int) l5) - 58872, 0L);
      Words.put64(b, ((int) l5) - 58880, 0L);
      Words.put64(b, ((int) l5) - 58888, 0L);
      Words.put64(b, ((int) l5) - 58896, 0L);
      f231(m, l5 + 16L, l0 + l4, l1 - l4);
      l2 = 3;
      if ((b[((int) l5) - 58896] & 0xff) != 1) { break L1; }
      l2 = 4;
      L14: {
       L15: {
        switch ((int) (b[((int) l5) - 58888] & 0xffL)) {
        case 1: break L14;
        case 2: break L1;
        default: break L15;
        }
       }
       l2 = b[((int) l5) - 58887] & 0xff;
       l4 = Words.get64(b, ((int) l5) - 58872);
       l3 = Words.get64(b, ((int) l5) - 58880);
       Words.put64(b, ((int) l5) - 58840, 0L);
       Words.put64(b, ((int) l5) - 58848, 0L);
       Words.put64(b, ((int) l5) - 58856, 0L);
       Words.put64(b, ((int) l5) - 58864, 0L);
       f231(m, l5 + 48L, l3, l4);
       final int t16 = (((b[((int) l5) - 58856] & 0xff) & 255) != 0) ? 3 : 5;
       final int t17 = ((b[((int) l5) - 58864] & 0xff) != 1) ? 1 : 0;
       final int t18 = t17 != 0 ? 3 : t16;
       final int t19 = l2;
       l2 = t19 != 0 ? t18 : 3;
       break L1;
      }
      l7 = b[((int) l5) - 58887] & 0xff;
      l4 = Words.get64(b, ((int) l5) - 58872);
      l3 = Words.get64(b, ((int) l5) - 58880);
      Words.put64(b, ((int) l5) - 58840, 0L);
      Words.put64(b, ((int) l5) - 58848, 0L);
      Words.put64(b, ((int) l5) - 58856, 0L);
      Words.put64(b, ((int) l5) - 58864, 0L);
      f231(m, l5 + 48L, l3, l4);
      L20: {
       if ((l8 = (((b[((int) l5) - 58864] & 0xff) == 1) & (((b[((int) l5) - 58856] & 0xff) & 255) == 1)) ? 1 : 0) != 1) { break L20; }
       final int t21 = l7 & 255;
       final int t22 = b[((int) l5) - 58855] & 0xff;
       final int t23 = l8;
       if (t21 + Integer.MIN_VALUE < ((l9 = t23 != 0 ? t22 : 0) & 255) + Integer.MIN_VALUE) { break L20; }
       l2 = 6;
       if ((l7 & 255) != 1) { break L1; }
       if ((l9 & 255) != 0) { break L1; }
      }
      L24: {
       if (((l7 | l8) & 255) != 0) { break L24; }
       l2 = 7;
       break L1;
      }
      Words.put64(b, ((int) l5) - 58840, 0L);
      Words.put64(b, ((int) l5) - 58848, 0L);
      Words.put64(b, ((int) l5) - 58856, 0L);
      Words.put64(b, ((int) l5) - 58864, 0L);
      f231(m, l5 + 48L, l3, l4);
      if ((b[((int) l5) - 58864] & 0xff) != 1) { break L2; }
      L25: {
       L26: while (true) {
        L27: {
         if ((b[((int) l5) - 58856] & 0xff) != 1) { break L27; }
         if ((l2 = (b[((int) l5) - 58855] & 0xff) & 255) + Integer.MIN_VALUE >= (l8 = l7 & 255) + Integer.MIN_VALUE) { break L25; }
        }
        f231(m, l5 + 48L, Words.get64(b, ((int) l5) - 58848), Words.get64(b, ((int) l5) - 58840));
        if ((b[((int) l5) - 58864] & 0xff) == 1) { continue L26; }
        break L2;
       }
      }
      if (l8 + Integer.MIN_VALUE < l2 + Integer.MIN_VALUE) { break L2; }
      l2 = 8;
      break L1;
     }
     l2 = 1;
     break L1;
    }
    l2 = 2;
    break L1;
   }
   throw State.trap();
  }
  l2 = 3;
 }
 m.g0 = l5 + 80L;
 return l2;
}

static void f231(State m, long l0, long l1, long l2) {
 final byte[] b = m.bytes;
 int l3 = 0;
 int l4 = 0;
 int l5 = 0;
 int l6 = 0;
 long l7 = 0;
 long l8 = 0;
 L1: {
  L2: {
   L3: {
    L4: {
     L5: {
      L6: {
       if (m.g0 < 16L) { break L6; }
       L7: {
        if (l2 == 0L) { break L7; }
        L8: while (true) {
         L9: {
          L10: {
           if ((l3 = b[((int) l1) - 58912] & 0xff) + Integer.MIN_VALUE > -2147483616) { break L10; }
           if (((1L << (l3 & 0xffffffffL)) & 4294983168L) == 0L) { break L10; }
           l7 = 1L;
           break L9;
          }
          L11: {
           L12: {
            L13: {
             if (l3 == 194) { break L13; }
             if (l2 + Long.MIN_VALUE < -9223372036854775805L) { break L12; }
             if (((l3 + 28) & 255) + Integer.MIN_VALUE < -2147483395) { break L12; }
             l4 = b[((int) (l1 + 1L)) - 58912] & 0xff;
             l6 = (int) (byte) (l5 = b[((int) (l1 + 2L)) - 58912] & 0xff);
             if (l3 != 226) { break L11; }
             if ((l4 & 255) != 128) { break L11; }
             l7 = 3L;
             if (l6 < -117) { break L9; }
             if ((l3 = l5 + -168) + Integer.MIN_VALUE > -2147483641) { break L5; }
             if (((1 << l3) & 131) == 0) { break L5; }
             break L9;
            }
            l7 = 1L;
            l3 = b[((int) l1) - 58911] & 0xff;
            L14: {
             if (l2 != 1L) { break L14; }
             l6 = l3 & 63;
             l3 = 194;
             break L3;
            }
            l7 = 2L;
            if (l3 == 133) { break L9; }
            if (l3 == 160) { break L9; }
           }
           if (l2 + Long.MIN_VALUE >= -9223372036854775805L) { break L5; }
           l4 = b[((int) l1) - 58912] & 0xff;
           break L4;
          }
          L15: {
           L16: {
            L17: {
             L18: {
              switch (l3 + -225) {
              case 1: break L17;
              case 2: break L16;
              default: break L18;
              }
             }
             if ((l4 & 255) != 154) { break L5; }
             if (l6 != -128) { break L5; }
             break L15;
            }
            if ((l4 & 255) != 129) { break L5; }
            if (l6 == -97) { break L15; }
            break L5;
           }
           if ((l4 & 255) != 128) { break L5; }
           if (l6 != -128) { break L5; }
          }
          l7 = 3L;
         }
         l1 = l1 + l7;
         if (!((l2 = l2 - l7) == 0L)) { continue L8; }
         break L8;
        }
       }
       Words.put64(b, ((int) l0) - 58912, 0L);
       Words.put64(b, ((int) (l0 + 16L)) - 58912, 0L);
       Words.put16(b, ((int) (l0 + 8L)) - 58912, (short) 0);
       Words.put64(b, ((int) (l0 + 24L)) - 58912, 0L);
       return;
      }
      throw State.trap();
     }
     if (((l4 = b[((int) l1) - 58912] & 0xff) & 240) != 224) { break L4; }
     l3 = (((b[((int) l1) - 58910] & 0xff) + ((b[((int) l1) - 58911] & 0xff) << 6)) + (l4 << 12)) + -925824;
     l7 = l2 + -3L;
     l1 = l1 + 3L;
     break L1;
    }
    l3 = l4 & 255;
    l8 = 1L;
    L19: {
     if (((int) (byte) l4) > -1) { break L19; }
     l6 = (b[((int) l1) - 58911] & 0xff) & 63;
     L20: {
      if ((l4 & 255) + Integer.MIN_VALUE > -2147483425) { break L20; }
      l7 = l2;
      break L3;
     }
     l5 = (b[((int) l1) - 58910] & 0xff) & 63;
     L21: {
      if ((l4 & 255) + Integer.MIN_VALUE > -2147483409) { break L21; }
      l3 = ((l6 << 6) | ((l3 << 12) & 61440)) | l5;
      l8 = 3L;
      break L19;
     }
     l3 = ((l5 << 6) | ((l6 << 12) | ((l3 << 18) & 1835008))) | ((b[((int) l1) - 58909] & 0xff) & 63);
     l8 = 4L;
    }
    l7 = l2;
    break L2;
   }
   l3 = ((l3 << 6) & 1984) | l6;
   l8 = 2L;
  }
  l7 = l7 - l8;
  l1 = l1 + l8;
 }
 L22: {
  L23: {
   if ((l3 + -2048) + Integer.MIN_VALUE > -2147420161) { break L23; }
   final int t24 = b[((int) ((l2 = ((((l3 = (((l3 >>> 12) | ((l3 << 2) & 16128)) | ((l3 << 16) & 4128768)) | 8421600) & 0xffffffffL) * 953497L) >>> 22L) & 1016L) + 66857L)) - 58912] & 0xff;
   final int t25 = l4 = (Words.get32(b, State.far((int) l2, 66852)) == l3) ? 1 : 0;
   l3 = t25 != 0 ? t24 : 0;
   final int t26 = b[((int) (l2 + 66856L)) - 58912] & 0xff;
   final int t27 = l4;
   l4 = t27 != 0 ? t26 : 2;
   break L22;
  }
  final int t28 = l3 = l3 + -48;
  final int t29 = l4 = (l3 + Integer.MIN_VALUE < -2147483638) ? 1 : 0;
  l3 = t29 != 0 ? t28 : 0;
  l4 = l4 != 0 ? 0 : 2;
 }
 Words.put64(b, ((int) l0) - 58912, 1L);
 Words.put64(b, ((int) (l0 + 24L)) - 58912, l7);
 Words.put64(b, ((int) (l0 + 16L)) - 58912, l1);
 b[((int) (l0 + 9L)) - 58912] = (byte) l3;
 b[((int) (l0 + 8L)) - 58912] = (byte) l4;
}

static int f232(State m, long l0, long l1, int l2, int l3, int l4, long l5) {
 final byte[] b = m.bytes;
 long l6 = 0;
 long l7 = 0;
 long l8 = 0;
 long l9 = 0;
 long l10 = 0;
 long l11 = 0;
 long l12 = 0;
 int l13 = 0;
 int l14 = 0;
 int l15 = 0;
 m.g0 = l6 = m.g0 - 48L;
 L1: {
  L2: {
   L3: {
    L4: {
     L5: {
      L6: {
       L7: {
        L8: {
         L9: {
          L10: {
           L11: {
            L12: {
             L13: {
              L14: {
               L15: {
                L16: {
                 L17: {
                  L18: {
                   if ((l7 = l6) < 16L) { break L18; }
                   if ((l3 & 255) != 0) { break L17; }
                   l8 = 0L;
                   Words.put64(b, ((int) l7) - 58872, 0L);
                   Words.put64(b, ((int) l7) - 58880, 0L);
                   Words.put64(b, ((int) l7) - 58888, 0L);
                   Words.put64(b, ((int) l7) - 58896, 0L);
                   l6 = l0;
                   l9 = l1;
                   if ((l2 & 255) + Integer.MIN_VALUE < -2147483643) { break L10; }
                   l9 = 0L;
                   L19: {
                    if (!(l1 == 0L)) { break L19; }
                    l8 = 0L;
                    l6 = l0;
                    break L10;
                   }
                   l10 = 1L;
                   l8 = l1;
                   l6 = l0;
                   L20: while (true) {
                    L21: {
                     L22: {
                      if ((l3 = b[((int) l6) - 58912] & 0xff) + Integer.MIN_VALUE > -2147483616) { break L22; }
                      l9 = 1L;
                      if (((1L << (l3 & 0xffffffffL)) & 4294983168L) != 0L) { break L21; }
                     }
                     L23: {
                      if (l3 != 194) { break L23; }
                      l9 = 1L;
                      l3 = b[((int) l6) - 58911] & 0xff;
                      L24: {
                       if (l8 != 1L) { break L24; }
                       l13 = l3 & 63;
                       l3 = 194;
                       break L13;
                      }
                      l9 = 2L;
                      if (l3 == 133) { break L21; }
                      if (l3 == 160) { break L21; }
                      break L16;
                     }
                     if (l8 + Long.MIN_VALUE < -9223372036854775805L) { break L16; }
                     if (((l3 + 28) & 255) + Integer.MIN_VALUE < -2147483395) { break L16; }
                     l4 = b[((int) (l6 + 1L)) - 58912] & 0xff;
                     l13 = (int) (byte) (l14 = b[((int) (l6 + 2L)) - 58912] & 0xff);
                     L25: {
                      if (l3 != 226) { break L25; }
                      if ((l4 & 255) != 128) { break L25; }
                      l9 = 3L;
                      if (l13 < -117) { break L21; }
                      if ((l3 = l14 + -168) + Integer.MIN_VALUE > -2147483641) { break L15; }
                      if (((1 << l3) & 131) == 0) { break L15; }
                      break L21;
                     }
                     L26: {
                      L27: {
                       L28: {
                        L29: {
                         switch (l3 + -225) {
                         case 1: break L28;
                         case 2: break L27;
                         default: break L29;
                         }
                        }
                        if ((l4 & 255) != 154) { break L15; }
                        if (l13 != -128) { break L15; }
                        break L26;
                       }
                       if ((l4 & 255) != 129) { break L15; }
                       if (l13 == -97) { break L26; }
                       break L15;
                      }
                      if ((l4 & 255) != 128) { break L15; }
                      if (l13 != -128) { break L15; }
                     }
                     l9 = 3L;
                    }
                    l10 = l10 + 1L;
                    l6 = l6 + l9;
                    if (!((l8 = l8 - l9) == 0L)) { continue L20; }
                    break L20;
                   }
                   l8 = l10 + -1L;
                   l9 = 0L;
                   break L10;
                  }
                  throw State.trap();
                 }
                 l8 = 0L;
                 Words.put64(b, ((int) l7) - 58872, 0L);
                 Words.put64(b, ((int) l7) - 58880, 0L);
                 Words.put64(b, ((int) l7) - 58888, 0L);
                 Words.put64(b, ((int) l7) - 58896, 0L);
                 l6 = l0;
                 l9 = l1;
                 L30: {
                  L31: {
                   L32: {
                    L33: {
                     if ((l2 & 255) + Integer.MIN_VALUE < -2147483643) { break L33; }
                     l9 = 0L;
                     L34: {
                      if (!(l1 == 0L)) { break L34; }
                      l8 = 0L;
                      l6 = l0;
                      break L33;
                     }
                     l10 = 1L;
                     l8 = l1;
                     l6 = l0;
                     L35: {
                      L36: {
                       L37: {
                        L38: {
                         L39: {
                          L40: {
                           L41: while (true) {
                            L42: {
                             L43: {
                              if ((l3 = b[((int) l6) - 58912] & 0xff) + Integer.MIN_VALUE > -2147483616) { break L43; }
                              l9 = 1L;
                              if (((1L << (l3 & 0xffffffffL)) & 4294983168L) != 0L) { break L42; }
                             }
                             L44: {
                              if (l3 != 194) { break L44; }
                              l9 = 1L;
                              l3 = b[((int) l6) - 58911] & 0xff;
                              L45: {
                               if (l8 != 1L) { break L45; }
                               l14 = l3 & 63;
                               l3 = 194;
                               break L37;
                              }
                              l9 = 2L;
                              if (l3 == 133) { break L42; }
                              if (l3 == 160) { break L42; }
                              break L40;
                             }
                             if (l8 + Long.MIN_VALUE < -9223372036854775805L) { break L40; }
                             if (((l3 + 28) & 255) + Integer.MIN_VALUE < -2147483395) { break L40; }
                             l13 = b[((int) (l6 + 1L)) - 58912] & 0xff;
                             l14 = (int) (byte) (l15 = b[((int) (l6 + 2L)) - 58912] & 0xff);
                             L46: {
                              if (l3 != 226) { break L46; }
                              if ((l13 & 255) != 128) { break L46; }
                              l9 = 3L;
                              if (l14 < -117) { break L42; }
                              if ((l3 = l15 + -168) + Integer.MIN_VALUE > -2147483641) { break L39; }
                              if (((1 << l3) & 131) == 0) { break L39; }
                              break L42;
                             }
                             L47: {
                              L48: {
                               L49: {
                                L50: {
                                 switch (l3 + -225) {
                                 case 1: break L49;
                                 case 2: break L48;
                                 default: break L50;
                                 }
                                }
                                if ((l13 & 255) != 154) { break L39; }
                                if (l14 != -128) { break L39; }
                                break L47;
                               }
                               if ((l13 & 255) != 129) { break L39; }
                               if (l14 == -97) { break L47; }
                               break L39;
                              }
                              if ((l13 & 255) != 128) { break L39; }
                              if (l14 != -128) { break L39; }
                             }
                             l9 = 3L;
                            }
                            l10 = l10 + 1L;
                            l6 = l6 + l9;
                            if (!((l8 = l8 - l9) == 0L)) { continue L41; }
                            break L41;
                           }
                           l8 = l10 + -1L;
                           l9 = 0L;
                           break L33;
                          }
                          if (l8 + Long.MIN_VALUE >= -9223372036854775805L) { break L39; }
                          l13 = b[((int) l6) - 58912] & 0xff;
                          break L38;
                         }
                         if (((l13 = b[((int) l6) - 58912] & 0xff) & 240) != 224) { break L38; }
                         l3 = (((b[((int) l6) - 58910] & 0xff) + ((b[((int) l6) - 58911] & 0xff) << 6)) + (l13 << 12)) + -925824;
                         l11 = l8 + -3L;
                         l12 = l6 + 3L;
                         l9 = l8;
                         break L35;
                        }
                        l3 = l13 & 255;
                        l12 = 1L;
                        L51: {
                         if (((int) (byte) l13) > -1) { break L51; }
                         l14 = (b[((int) l6) - 58911] & 0xff) & 63;
                         L52: {
                          if ((l13 & 255) + Integer.MIN_VALUE > -2147483425) { break L52; }
                          l9 = l8;
                          break L37;
                         }
                         l15 = (b[((int) l6) - 58910] & 0xff) & 63;
                         L53: {
                          if ((l13 & 255) + Integer.MIN_VALUE > -2147483409) { break L53; }
                          l3 = ((l14 << 6) | ((l3 << 12) & 61440)) | l15;
                          l12 = 3L;
                          break L51;
                         }
                         l3 = ((l15 << 6) | ((l14 << 12) | ((l3 << 18) & 1835008))) | ((b[((int) l6) - 58909] & 0xff) & 63);
                         l12 = 4L;
                        }
                        l9 = l8;
                        break L36;
                       }
                       l3 = ((l3 << 6) & 1984) | l14;
                       l12 = 2L;
                      }
                      l11 = l9 - l12;
                      l12 = l6 + l12;
                     }
                     L54: {
                      if (l3 != 27491) { break L54; }
                      l13 = 0;
                      break L31;
                     }
                     if (l3 == 36000) { break L32; }
                     if (l3 == 36127) { break L32; }
                     l8 = l10 + -1L;
                    }
                    Core2.f38(m, l7 + 16L, l4, l8, l6, l9);
                    l3 = 2;
                    l13 = 0;
                    break L30;
                   }
                   l13 = 1;
                  }
                  Core2.f38(m, l7 + 16L, l4, l10, l12, l11);
                  l3 = l13 != 0 ? 3 : 2;
                 }
                 l8 = Words.get64(b, ((int) l7) - 58872);
                 l6 = Words.get64(b, ((int) l7) - 58880);
                 L55: {
                  if ((b[((int) l7) - 58896] & 0xff) != 0) { break L55; }
                  final int t56 = (l6 + Long.MIN_VALUE > Words.get64(b, ((int) (l9 = (((l2 & 0xffffffffL) & 255L) << 5L) + (l13 != 0 ? 67904L : 67888L))) - 58912) + Long.MIN_VALUE) ? 1 : 0;
                  final int t57 = (l8 + Long.MIN_VALUE > (l9 = Words.get64(b, ((int) l9) - 58904)) + Long.MIN_VALUE) ? 1 : 0;
                  final int t58 = (l8 == l9) ? 1 : 0;
                  if ((t58 != 0 ? t56 : t57) != 0) { break L6; }
                  l9 = l13 & 0xffffffffL;
                  break L4;
                 }
                 final int t59 = l3;
                 final int t60 = l2 = b[((int) l7) - 58888] & 0xff;
                 final int t61 = l2 = (l2 == 2) ? 1 : 0;
                 l3 = t61 != 0 ? t59 : t60;
                 l8 = 0L;
                 l9 = l2 != 0 ? 0L : l6;
                 break L2;
                }
                if (l8 + Long.MIN_VALUE >= -9223372036854775805L) { break L15; }
                l4 = b[((int) l6) - 58912] & 0xff;
                break L14;
               }
               if (((l4 = b[((int) l6) - 58912] & 0xff) & 240) != 224) { break L14; }
               l3 = (((b[((int) l6) - 58910] & 0xff) + ((b[((int) l6) - 58911] & 0xff) << 6)) + (l4 << 12)) + -925824;
               l11 = l8 + -3L;
               l12 = l6 + 3L;
               l9 = l8;
               break L11;
              }
              l3 = l4 & 255;
              l12 = 1L;
              L62: {
               if (((int) (byte) l4) > -1) { break L62; }
               l13 = (b[((int) l6) - 58911] & 0xff) & 63;
               L63: {
                if ((l4 & 255) + Integer.MIN_VALUE > -2147483425) { break L63; }
                l9 = l8;
                break L13;
               }
               l14 = (b[((int) l6) - 58910] & 0xff) & 63;
               L64: {
                if ((l4 & 255) + Integer.MIN_VALUE > -2147483409) { break L64; }
                l3 = ((l13 << 6) | ((l3 << 12) & 61440)) | l14;
                l12 = 3L;
                break L62;
               }
               l3 = ((l14 << 6) | ((l13 << 12) | ((l3 << 18) & 1835008))) | ((b[((int) l6) - 58909] & 0xff) & 63);
               l12 = 4L;
              }
              l9 = l8;
              break L12;
             }
             l3 = ((l3 << 6) & 1984) | l13;
             l12 = 2L;
            }
            l11 = l9 - l12;
            l12 = l6 + l12;
           }
           L65: {
            if (l3 != 27491) { break L65; }
            l4 = 0;
            break L8;
           }
           if (l3 == 36000) { break L9; }
           if (l3 == 36127) { break L9; }
           l8 = l10 + -1L;
          }
          Core2.f39(m, l7 + 16L, l8, l6, l9);
          l3 = 2;
          l4 = 0;
          break L7;
         }
         l4 = 1;
        }
        Core2.f39(m, l7 + 16L, l10, l12, l11);
        l3 = l4 != 0 ? 3 : 2;
       }
       l8 = Words.get64(b, ((int) l7) - 58872);
       l6 = Words.get64(b, ((int) l7) - 58880);
       if ((b[((int) l7) - 58896] & 0xff) != 0) { break L3; }
       final int t66 = (l6 + Long.MIN_VALUE > Words.get64(b, ((int) (l9 = (((l2 & 0xffffffffL) & 255L) << 5L) + (l4 != 0 ? 67904L : 67888L))) - 58912) + Long.MIN_VALUE) ? 1 : 0;
       final int t67 = (l8 + Long.MIN_VALUE > (l9 = Words.get64(b, ((int) l9) - 58904)) + Long.MIN_VALUE) ? 1 : 0;
       final int t68 = (l8 == l9) ? 1 : 0;
       if ((t68 != 0 ? t66 : t67) == 0) { break L5; }
      }
      l6 = 0L;
      l2 = 1;
      l8 = 0L;
      l9 = 0L;
      break L1;
     }
     l9 = l4 & 0xffffffffL;
    }
    l2 = 0;
    l3 = 0;
    break L1;
   }
   final int t69 = l3;
   final int t70 = l2 = b[((int) l7) - 58888] & 0xff;
   final int t71 = l2 = (l2 == 2) ? 1 : 0;
   l3 = t71 != 0 ? t69 : t70;
   l8 = 0L;
   l9 = l2 != 0 ? 0L : l6;
  }
  l2 = 1;
  l6 = 0L;
 }
 L72: {
  L73: {
   if (l2 != 0) { break L73; }
   Words.put64(b, ((int) l5) - 58896, 0L);
   Words.put64(b, ((int) l5) - 58888, 0L);
   final int t74 = (int) l5;
   final long t75 = 0L - l6;
   final long t76 = l6;
   final int t77 = l3 = ((int) l9) & 1;
   Words.put64(b, t74 - 58912, t77 != 0 ? t75 : t76);
   final int t78 = (int) l5;
   final long t79 = 0L - (l8 + ((l6 != 0L) ? 1L : 0L));
   final long t80 = l8;
   final int t81 = l3;
   Words.put64(b, t78 - 58904, t81 != 0 ? t79 : t80);
   l2 = 0;
   break L72;
  }
  l6 = 0L;
  Words.put64(b, ((int) l5) - 58888, 0L);
  Words.put64(b, ((int) l5) - 58896, 0L);
  Words.put64(b, ((int) l5) - 58904, 0L);
  Words.put64(b, ((int) l5) - 58912, 0L);
  l2 = 1;
  L82: {
   L83: {
    L84: {
     switch (l3) {
     case 1: break L84;
     case 2: break L83;
     case 3: break L82;
     default: break L72;
     }
    }
    Words.put64(b, ((int) l5) - 58896, l9);
    L85: {
     if (l9 + Long.MIN_VALUE < -9223372036854775792L) { break L85; }
     Core1.f25(m, l7, l0, l1, l9);
     l9 = Words.get64(b, ((int) l7) - 58904);
     l6 = Words.get64(b, ((int) l7) - 58912);
    }
    L86: {
     if (l9 + Long.MIN_VALUE < -9223372036854775805L) { break L86; }
     L87: while (true) {
      if ((l1 - l6) + Long.MIN_VALUE < -9223372036854775800L) { break L86; }
      L88: {
       L89: {
        if (((l8 = Words.get64(b, ((int) (l0 + l6)) - 58912)) & 67553998437089520L) != 63050398541283552L) { break L89; }
        l9 = l9 + -3L;
        l6 = l6 + 9L;
        break L88;
       }
       if (l9 + Long.MIN_VALUE < -9223372036854775800L) { break L86; }
       if ((l8 & -9187201950435737472L) != 0L) { break L86; }
       l9 = l9 + -8L;
       l6 = l6 + 8L;
      }
      if (l9 + Long.MIN_VALUE > -9223372036854775806L) { continue L87; }
      break L87;
     }
    }
    L90: {
     if (l9 == 0L) { break L90; }
     if (l1 + Long.MIN_VALUE <= l6 + Long.MIN_VALUE) { break L90; }
     l9 = l9 + -1L;
     L91: while (true) {
      l6 = Words.get64(b, ((int) (((((b[((int) (l0 + l6)) - 58912] & 0xff) >>> 1) & 0xffffffffL) & 120L) + 66680L)) - 58912) + l6;
      if (l9 == 0L) { break L90; }
      l9 = l9 + -1L;
      if (l1 + Long.MIN_VALUE > l6 + Long.MIN_VALUE) { continue L91; }
      break L91;
     }
    }
    Words.put64(b, ((int) l5) - 58888, l6);
    l2 = 2;
    break L72;
   }
   l2 = 3;
   break L72;
  }
  l2 = 4;
 }
 m.g0 = l7 + 48L;
 return l2;
}

static int f233(State m, long l0, long l1, int l2, int l3, int l4, long l5) {
 final byte[] b = m.bytes;
 long l6 = 0;
 long l7 = 0;
 long l8 = 0;
 long l9 = 0;
 m.g0 = l6 = m.g0 - 48L;
 L1: {
  L2: {
   L3: {
    if ((l7 = l6) < 16L) { break L3; }
    Words.put64(b, ((int) l7) - 58872, 0L);
    Words.put64(b, ((int) l7) - 58880, 0L);
    Words.put64(b, ((int) l7) - 58888, 0L);
    Words.put64(b, ((int) l7) - 58896, 0L);
    L4: {
     L5: {
      if ((l3 & 255) != 0) { break L5; }
      Core2.f39(m, l7 + 16L, 0L, l0, l1);
      break L4;
     }
     Core2.f38(m, l7 + 16L, l4, 0L, l0, l1);
    }
    l8 = Words.get64(b, ((int) l7) - 58880);
    L6: {
     if ((b[((int) l7) - 58896] & 0xff) != 0) { break L6; }
     L7: {
      final int t8 = (Words.get64(b, State.far((int) (l6 = ((l2 & 0xffffffffL) & 255L) << 5L), 67888)) + Long.MIN_VALUE >= l8 + Long.MIN_VALUE) ? 1 : 0;
      final int t9 = ((l1 = Words.get64(b, State.far((int) l6, 67896))) + Long.MIN_VALUE >= (l6 = Words.get64(b, ((int) l7) - 58872)) + Long.MIN_VALUE) ? 1 : 0;
      final int t10 = (l1 == l6) ? 1 : 0;
      if ((t10 != 0 ? t8 : t9) != 0) { break L7; }
      Words.put64(b, ((int) l5) - 58888, 0L);
      Words.put64(b, ((int) l5) - 58896, 0L);
      Words.put64(b, ((int) l5) - 58904, 0L);
      Words.put64(b, ((int) l5) - 58912, 0L);
      break L2;
     }
     Words.put64(b, ((int) l5) - 58896, 0L);
     Words.put64(b, ((int) l5) - 58912, l8);
     Words.put64(b, ((int) l5) - 58888, 0L);
     Words.put64(b, ((int) l5) - 58904, l6);
     l3 = 0;
     break L1;
    }
    l9 = b[((int) l7) - 58888] & 0xffL;
    l6 = 0L;
    Words.put64(b, ((int) l5) - 58888, 0L);
    Words.put64(b, ((int) l5) - 58896, 0L);
    Words.put64(b, ((int) l5) - 58904, 0L);
    Words.put64(b, ((int) l5) - 58912, 0L);
    l3 = 1;
    L11: {
     L12: {
      switch ((int) l9) {
      case 1: break L12;
      case 2: break L2;
      case 3: break L11;
      default: break L1;
      }
     }
     Words.put64(b, ((int) l5) - 58896, l8);
     L13: {
      if (l8 + Long.MIN_VALUE < -9223372036854775792L) { break L13; }
      Core1.f25(m, l7, l0, l1, l8);
      l8 = Words.get64(b, ((int) l7) - 58904);
      l6 = Words.get64(b, ((int) l7) - 58912);
     }
     L14: {
      if (l8 + Long.MIN_VALUE < -9223372036854775805L) { break L14; }
      L15: while (true) {
       if ((l1 - l6) + Long.MIN_VALUE < -9223372036854775800L) { break L14; }
       L16: {
        L17: {
         if (((l9 = Words.get64(b, ((int) (l0 + l6)) - 58912)) & 67553998437089520L) != 63050398541283552L) { break L17; }
         l8 = l8 + -3L;
         l6 = l6 + 9L;
         break L16;
        }
        if (l8 + Long.MIN_VALUE < -9223372036854775800L) { break L14; }
        if ((l9 & -9187201950435737472L) != 0L) { break L14; }
        l8 = l8 + -8L;
        l6 = l6 + 8L;
       }
       if (l8 + Long.MIN_VALUE > -9223372036854775806L) { continue L15; }
       break L15;
      }
     }
     L18: {
      if (l8 == 0L) { break L18; }
      if (l1 + Long.MIN_VALUE <= l6 + Long.MIN_VALUE) { break L18; }
      l8 = l8 + -1L;
      L19: while (true) {
       l6 = Words.get64(b, ((int) (((((b[((int) (l0 + l6)) - 58912] & 0xff) >>> 1) & 0xffffffffL) & 120L) + 66680L)) - 58912) + l6;
       if (l8 == 0L) { break L18; }
       l8 = l8 + -1L;
       if (l1 + Long.MIN_VALUE > l6 + Long.MIN_VALUE) { continue L19; }
       break L19;
      }
     }
     Words.put64(b, ((int) l5) - 58888, l6);
     l3 = 2;
     break L1;
    }
    l3 = 4;
    break L1;
   }
   throw State.trap();
  }
  l3 = 3;
 }
 m.g0 = l7 + 48L;
 return l3;
}

static int f234(State m, long l0, long l1, int l2, long l3) {
 final byte[] b = m.bytes;
 long l4 = 0;
 int l5 = 0;
 int l6 = 0;
 m.g0 = l4 = m.g0 - 16L;
 L1: {
  if ((l4 = l4) < 16L) { break L1; }
  f228(m, l4 + 8L, l2, l0, l1);
  l5 = b[((int) l4) - 58903] & 0xff;
  l6 = b[((int) l4) - 58904] & 0xff;
  L2: {
   L3: {
    if ((l2 & 255) + Integer.MIN_VALUE < -2147483643) { break L3; }
    l2 = f232(m, l0, l1, l2, l6, l5, l3);
    break L2;
   }
   l2 = f233(m, l0, l1, l2, l6, l5, l3);
  }
  m.g0 = l4 + 16L;
  final int t4 = l2;
  return t4;
 }
 throw State.trap();
}

static int f235(State m, long l0, long l1) {
 final byte[] b = m.bytes;
 long l2 = 0;
 long l3 = 0;
 long l4 = 0;
 long l5 = 0;
 int l6 = 0;
 int l7 = 0;
 int l8 = 0;
 int l9 = 0;
 int l10 = 0;
 int l11 = 0;
 m.g0 = l2 = m.g0 - 16L;
 L1: {
  L2: {
   L3: {
    L4: {
     L5: {
      if ((l2 = l2) < 16L) { break L5; }
      L6: {
       if ((l3 = Words.get64(b, ((int) l1) - 58904)) != l0) { break L6; }
       l6 = 0;
       break L1;
      }
      l3 = l3 - l0;
      l7 = (l6 = (int) b[((int) (l4 = Words.get64(b, ((int) l1) - 58912) + l0)) - 58912]) & 255;
      l0 = 1L;
      L7: {
       if (l6 > -1) { break L7; }
       l8 = (b[((int) l4) - 58911] & 0xff) & 63;
       L8: {
        if (l6 + Integer.MIN_VALUE > 2147483615) { break L8; }
        l7 = ((l7 << 6) & 1984) | l8;
        l0 = 2L;
        break L7;
       }
       l9 = (b[((int) l4) - 58910] & 0xff) & 63;
       L9: {
        if (l6 + Integer.MIN_VALUE > 2147483631) { break L9; }
        l7 = ((l8 << 6) | ((l7 << 12) & 61440)) | l9;
        l0 = 3L;
        break L7;
       }
       l7 = ((l9 << 6) | ((l8 << 12) | ((l7 << 18) & 1835008))) | ((b[((int) l4) - 58909] & 0xff) & 63);
       l0 = 4L;
      }
      L10: {
       L11: {
        L12: {
         L13: {
          L14: {
           if (l3 == l0) { break L14; }
           l8 = (l6 = (int) b[((int) (l4 = l4 + l0)) - 58912]) & 255;
           l1 = 1L;
           L15: {
            if (l6 > -1) { break L15; }
            l9 = (b[((int) l4) - 58911] & 0xff) & 63;
            L16: {
             if (l6 + Integer.MIN_VALUE > 2147483615) { break L16; }
             l8 = ((l8 << 6) & 1984) | l9;
             l1 = 2L;
             break L15;
            }
            l10 = (b[((int) l4) - 58910] & 0xff) & 63;
            L17: {
             if (l6 + Integer.MIN_VALUE > 2147483631) { break L17; }
             l8 = ((l9 << 6) | ((l8 << 12) & 61440)) | l10;
             l1 = 3L;
             break L15;
            }
            l8 = ((l10 << 6) | ((l9 << 12) | ((l8 << 18) & 1835008))) | ((b[((int) l4) - 58909] & 0xff) & 63);
            l1 = 4L;
           }
           if (l3 == (l0 = l1 + l0)) { break L11; }
           l9 = (l6 = (int) b[((int) (l4 = l4 + l1)) - 58912]) & 255;
           l1 = 1L;
           if (l6 > -1) { break L12; }
           l10 = (b[((int) l4) - 58911] & 0xff) & 63;
           L18: {
            if (l6 + Integer.MIN_VALUE > 2147483615) { break L18; }
            l9 = ((l9 << 6) & 1984) | l10;
            l1 = 2L;
            break L12;
           }
           l11 = (b[((int) l4) - 58910] & 0xff) & 63;
           if (l6 + Integer.MIN_VALUE > 2147483631) { break L13; }
           l9 = ((l10 << 6) | ((l9 << 12) & 61440)) | l11;
           l1 = 3L;
           break L12;
          }
          l3 = Words.get64(b, ((int) l1) - 58896);
          l0 = Words.get64(b, ((int) l1) - 58888);
          l4 = Words.get64(b, ((int) l1) - 58880);
          l1 = Words.get64(b, ((int) l1) - 58872);
          L19: {
           L20: {
            if (l7 > 21039) { break L20; }
            L21: {
             if (l7 != 45) { break L21; }
             l6 = 1;
             break L1;
            }
            L22: {
             if (l7 != 126) { break L22; }
             l6 = 1;
             break L1;
            }
            if (l7 != 12316) { break L19; }
            l6 = 1;
            break L1;
           }
           L23: {
            if (l7 > 65292) { break L23; }
            L24: {
             if (l7 != 21040) { break L24; }
             l6 = 1;
             break L1;
            }
            if (l7 != 33267) { break L19; }
            l6 = 1;
            break L1;
           }
           L25: {
            if (l7 != 65293) { break L25; }
            l6 = 1;
            break L1;
           }
           if (l7 != 65374) { break L19; }
           l6 = 1;
           break L1;
          }
          L26: {
           if ((l7 + -8211) + Integer.MIN_VALUE >= -2147483646) { break L26; }
           l6 = 1;
           break L1;
          }
          L27: {
           L28: {
            if (l7 > 24229) { break L28; }
            L29: {
             if (l7 > 21332) { break L29; }
             L30: {
              if (l7 > 20942) { break L30; }
              L31: {
               if (l7 > 20802) { break L31; }
               if (l7 == 20004) { break L3; }
               l6 = 1;
               if (l7 != 20056) { break L2; }
               break L1;
              }
              if (l7 == 20803) { break L3; }
              if (l7 == 20841) { break L3; }
              break L2;
             }
             L32: {
              if (l7 > 21050) { break L32; }
              if (l7 != 20943) { break L27; }
              l6 = 1;
              break L1;
             }
             if (l7 == 21051) { break L4; }
             l6 = 1;
             if (l7 != 21152) { break L2; }
             break L1;
            }
            L33: {
             if (l7 > 22277) { break L33; }
             L34: {
              if (l7 != 21333) { break L34; }
              l6 = 1;
              break L1;
             }
             if (l7 == 21495) { break L4; }
             l6 = 1;
             if (l7 != 21934) { break L2; }
             break L1;
            }
            L35: {
             if (l7 > 22601) { break L35; }
             L36: {
              switch (l7 + -22278) {
              case 0: case 13: break L3;
              case 1: case 2: case 3: case 4: case 5: case 6: case 7: case 8: case 9: case 10: case 11: case 12: break L2;
              default: break L36;
              }
             }
             if (l7 == 22359) { break L3; }
             break L2;
            }
            if (l7 == 22602) { break L3; }
            if (l7 != 24180) { break L2; }
            break L4;
           }
           L37: {
            if (l7 > 28186) { break L37; }
            L38: {
             if (l7 > 26177) { break L38; }
             l6 = 1;
             L39: {
              switch (l7 + -26085) {
              case 0: break L4;
              case 1: case 2: case 3: case 4: case 5: case 6: case 7: case 8: case 9: case 10: case 11: case 12: case 13: case 14: case 15: case 16: break L2;
              case 17: break L1;
              default: break L39;
              }
             }
             if (l7 == 24230) { break L3; }
             if (l7 == 26020) { break L3; }
             break L2;
            }
            l6 = 1;
            L40: {
             switch (l7 + -26376) {
             case 0: break L4;
             case 1: break L1;
             default: break L40;
             }
            }
            l6 = 1;
            L41: {
             switch (l7 + -27604) {
             case 0: break L1;
             case 1: case 2: case 3: case 4: case 5: case 6: break L2;
             case 7: break L3;
             default: break L41;
             }
            }
            l6 = 1;
            if (l7 != 26178) { break L2; }
            break L1;
           }
           L42: {
            if (l7 > 34398) { break L42; }
            L43: {
             if (l7 > 31185) { break L43; }
             L44: {
              if (l7 != 28187) { break L44; }
              l6 = 1;
              break L1;
             }
             l6 = 1;
             if (l7 != 28857) { break L2; }
             break L1;
            }
            if (l7 == 31186) { break L4; }
            if (l7 == 31859) { break L3; }
            break L2;
           }
           L45: {
            if (l7 > 38499) { break L45; }
            if (l7 == 34399) { break L4; }
            if (l7 == 35282) { break L3; }
            break L2;
           }
           L46: {
            if (l7 != 38500) { break L46; }
            l6 = 1;
            break L1;
           }
           l6 = 1;
           if (l7 != 40670) { break L2; }
           break L1;
          }
          if (l7 == 20998) { break L4; }
          break L2;
         }
         l9 = ((l11 << 6) | ((l10 << 12) | ((l9 << 18) & 1835008))) | ((b[((int) l4) - 58909] & 0xff) & 63);
         l1 = 4L;
        }
        if (l3 == (l1 + l0)) { break L10; }
        l6 = 0;
        break L1;
       }
       L47: {
        if (f236(m, l7) == 0) { break L47; }
        l6 = 1;
        L48: {
         L49: {
          if (l8 > 21039) { break L49; }
          if (l8 == 45) { break L1; }
          if (l8 == 126) { break L1; }
          if (l8 != 12316) { break L48; }
          break L1;
         }
         L50: {
          if (l8 > 65292) { break L50; }
          if (l8 == 21040) { break L1; }
          if (l8 != 33267) { break L48; }
          break L1;
         }
         if (l8 == 65293) { break L1; }
         if (l8 == 65374) { break L1; }
        }
        if ((l8 + -8211) + Integer.MIN_VALUE < -2147483646) { break L1; }
       }
       L51: {
        L52: {
         L53: {
          if (l7 > 23566) { break L53; }
          if (l7 == 20056) { break L52; }
          l6 = 0;
          if (l7 != 20998) { break L1; }
          l6 = ((l8 == 38047) | (l8 == 37912)) ? 1 : 0;
          break L1;
         }
         L54: {
          if (l7 == 23567) { break L54; }
          if (l7 == 31561) { break L51; }
          if (l7 == 38500) { break L52; }
          l6 = 0;
          break L1;
         }
         l6 = ((l8 == 26178) | (l8 == 26102)) ? 1 : 0;
         break L1;
        }
        l6 = 1;
        if (l8 == 20197) { break L1; }
        l6 = 0;
        if (l7 != 31561) { break L1; }
       }
       l6 = ((l8 == 20110) | (l8 == 26044)) ? 1 : 0;
       break L1;
      }
      L55: {
       if (l7 == 20491) { break L55; }
       if (l7 == 20010) { break L55; }
       l6 = 0;
       break L1;
      }
      l6 = 0;
      if (l8 != 23567) { break L1; }
      l6 = ((l9 == 26102) | (l9 == 26178)) ? 1 : 0;
      break L1;
     }
     throw State.trap();
    }
    L56: {
     if (f237(m, l3, l0, l4, l1) != 0) { break L56; }
     l6 = 1;
     break L1;
    }
    L57: {
     if (l7 > 24229) { break L57; }
     L58: {
      switch (l7 + -22278) {
      case 0: case 13: break L3;
      case 1: case 2: case 3: case 4: case 5: case 6: case 7: case 8: case 9: case 10: case 11: case 12: break L2;
      default: break L58;
      }
     }
     if (l7 == 22359) { break L3; }
     if (l7 == 22602) { break L3; }
     break L2;
    }
    L59: {
     if (l7 > 27610) { break L59; }
     if (l7 == 24230) { break L3; }
     if (l7 == 26020) { break L3; }
     break L2;
    }
    if (l7 == 31859) { break L3; }
    if (l7 != 27611) { break L2; }
   }
   l6 = 0;
   if (f237(m, l3, l0, l4, l1) != 0) { break L1; }
   Words.put32(b, ((int) l2) - 58900, 0);
   L60: {
    L61: {
     L62: {
      L63: {
       L64: {
        L65: {
         if ((l5 = l0 + -1L) + Long.MIN_VALUE > -9223372036854775806L) { break L65; }
         L66: {
          switch ((int) l5) {
          case 1: break L65;
          case 2: break L66;
          default: break L61;
          }
         }
         if (Words.get32(b, State.far((int) (l5 = ((((l6 = (((b[((int) l3) - 58911] & 0xff) << 8) | (l7 = b[((int) l3) - 58912] & 0xff)) | ((b[((int) l3) - 58910] & 0xff) << 16)) & 0xffffffffL) * 953497L) >>> 22L) & 1016L), 66852)) != l6) { break L64; }
         if (((b[((int) (l5 + 66856L)) - 58912] & 0xff) & 255) == 2) { break L64; }
         if (!(l1 == 0L)) { break L60; }
         l6 = 1;
         break L1;
        }
        if (l0 + Long.MIN_VALUE > -9223372036854775804L) { break L62; }
        if (l0 == 0L) { break L63; }
        l7 = b[((int) l3) - 58912] & 0xff;
       }
       if (((int) (byte) l7) > -1) { break L62; }
      }
      Core3.f113(m, l2 + 12L, l3, l0);
      L67: {
       if (!(l1 == 0L)) { break L67; }
       l6 = 1;
       break L1;
      }
      L68: {
       if (((b[((int) l2) - 58900] & 0xff) & 255) == 1) { break L68; }
       l6 = 1;
       break L1;
      }
      if (((b[((int) l2) - 58897] & 0xff) & 1) != 0) { break L60; }
     }
     l6 = 1;
     break L1;
    }
    L69: {
     if (!(l1 == 0L)) { break L69; }
     l6 = 1;
     break L1;
    }
    if ((((b[((int) l3) - 58912] & 0xff) + -48) & 255) + Integer.MIN_VALUE >= -2147483638) { break L60; }
    l6 = 1;
    break L1;
   }
   l7 = (l6 = (int) b[((int) l4) - 58912]) & 255;
   L70: {
    if (l6 > -1) { break L70; }
    l8 = (b[((int) l4) - 58911] & 0xff) & 63;
    L71: {
     if (l6 + Integer.MIN_VALUE > 2147483615) { break L71; }
     l7 = ((l7 << 6) & 1984) | l8;
     break L70;
    }
    l9 = (b[((int) l4) - 58910] & 0xff) & 63;
    L72: {
     if (l6 + Integer.MIN_VALUE > 2147483631) { break L72; }
     l7 = ((l8 << 6) | ((l7 << 12) & 61440)) | l9;
     break L70;
    }
    l7 = ((l9 << 6) | ((l8 << 12) | ((l7 << 18) & 1835008))) | ((b[((int) l4) - 58909] & 0xff) & 63);
   }
   l6 = 0;
   L73: {
    L74: {
     if (l7 > 24372) { break L74; }
     L75: {
      if (l7 > 21252) { break L75; }
      L76: {
       if (l7 > 20213) { break L76; }
       if (l7 == 20010) { break L1; }
       if (l7 != 20154) { break L73; }
       break L1;
      }
      L77: {
       switch (l7 + -20214) {
       case 0: case 7: break L1;
       case 1: case 2: case 3: case 4: case 5: case 6: break L73;
       default: break L77;
       }
      }
      if (l7 == 20301) { break L1; }
      if (l7 != 20491) { break L73; }
      break L1;
     }
     L78: {
      if (l7 > 21516) { break L78; }
      L79: {
       switch (l7 + -21482) {
       case 0: case 6: break L1;
       case 1: case 2: case 3: case 4: case 5: break L73;
       default: break L79;
       }
      }
      if (l7 != 21253) { break L73; }
      break L1;
     }
     if (l7 == 21517) { break L1; }
     if (l7 == 22871) { break L1; }
     if (l7 != 24352) { break L73; }
     break L1;
    }
    L80: {
     if (l7 > 27424) { break L80; }
     L81: {
      if (l7 > 26464) { break L81; }
      if (l7 == 24373) { break L1; }
      if (l7 == 26020) { break L1; }
      if (l7 != 26412) { break L73; }
      break L1;
     }
     L82: {
      switch (l7 + -26465) {
      case 0: case 14: break L1;
      case 1: case 2: case 3: case 4: case 5: case 6: case 7: case 8: case 9: case 10: case 11: case 12: case 13: break L73;
      default: break L82;
      }
     }
     if (l7 != 26781) { break L73; }
     break L1;
    }
    L83: {
     if (l7 > 30870) { break L83; }
     if (l7 == 27425) { break L1; }
     if (l7 == 29942) { break L1; }
     if (l7 != 30418) { break L73; }
     break L1;
    }
    if (l7 == 30871) { break L1; }
    if (l7 == 31665) { break L1; }
    if (l7 == 38587) { break L1; }
   }
   l6 = 1;
   break L1;
  }
  l6 = 0;
 }
 m.g0 = l2 + 16L;
 return l6;
}

static int f236(State m, int l0) {
 int l1 = 0;
 L1: {
  if (m.g0 < 16L) { break L1; }
  l1 = 1;
  L2: {
   L3: {
    L4: {
     if (l0 > 26019) { break L4; }
     L5: {
      if (l0 > 22277) { break L5; }
      L6: {
       if (l0 > 20997) { break L6; }
       if (l0 == 20004) { break L2; }
       if (l0 == 20803) { break L2; }
       if (l0 != 20841) { break L3; }
       break L2;
      }
      if (l0 == 20998) { break L2; }
      if (l0 == 21051) { break L2; }
      if (l0 != 21495) { break L3; }
      break L2;
     }
     L7: {
      if (l0 > 22601) { break L7; }
      L8: {
       switch (l0 + -22278) {
       case 0: case 13: break L2;
       case 1: case 2: case 3: case 4: case 5: case 6: case 7: case 8: case 9: case 10: case 11: case 12: break L3;
       default: break L8;
       }
      }
      if (l0 != 22359) { break L3; }
      break L2;
     }
     if (l0 == 22602) { break L2; }
     if (l0 == 24180) { break L2; }
     if (l0 != 24230) { break L3; }
     break L2;
    }
    L9: {
     if (l0 > 28856) { break L9; }
     L10: {
      if (l0 > 26177) { break L10; }
      L11: {
       switch (l0 + -26085) {
       case 0: case 17: break L2;
       case 1: case 2: case 3: case 4: case 5: case 6: case 7: case 8: case 9: case 10: case 11: case 12: case 13: case 14: case 15: case 16: break L3;
       default: break L11;
       }
      }
      if (l0 != 26020) { break L3; }
      break L2;
     }
     if (l0 == 26178) { break L2; }
     if (l0 == 26376) { break L2; }
     if (l0 != 27611) { break L3; }
     break L2;
    }
    L12: {
     if (l0 > 34398) { break L12; }
     if (l0 == 28857) { break L2; }
     if (l0 == 31186) { break L2; }
     if (l0 != 31859) { break L3; }
     break L2;
    }
    if (l0 == 34399) { break L2; }
    if (l0 == 35282) { break L2; }
    if (l0 == 40670) { break L2; }
   }
   l1 = 0;
  }
  final int t13 = l1;
  return t13;
 }
 throw State.trap();
}

static int f237(State m, long l0, long l1, long l2, long l3) {
 final byte[] b = m.bytes;
 long l4 = 0;
 int l5 = 0;
 int l6 = 0;
 int l7 = 0;
 int l8 = 0;
 int l9 = 0;
 L1: {
  if ((l4 = m.g0) < 16L) { break L1; }
  l5 = 0;
  L2: {
   if (l1 == 0L) { break L2; }
   if ((l6 = (int) b[((int) l0) - 58912]) > -1) { break L2; }
   if (l6 + Integer.MIN_VALUE < 2147483616) { break L2; }
   l7 = l6 & 255;
   l8 = (b[((int) l0) - 58911] & 0xff) & 63;
   l9 = (b[((int) l0) - 58910] & 0xff) & 63;
   L3: {
    L4: {
     if (l6 + Integer.MIN_VALUE > 2147483631) { break L4; }
     l6 = ((l8 << 6) | ((l7 << 12) & 61440)) | l9;
     l0 = 3L;
     break L3;
    }
    l6 = ((l9 << 6) | ((l8 << 12) | ((l7 << 18) & 1835008))) | ((b[((int) l0) - 58909] & 0xff) & 63);
    l0 = 4L;
   }
   if (l6 != 19968) { break L2; }
   if (l1 != l0) { break L2; }
   if (l3 == 0L) { break L2; }
   l6 = (l7 = (int) b[((int) l2) - 58912]) & 255;
   L5: {
    if (l7 > -1) { break L5; }
    l8 = (b[((int) l2) - 58911] & 0xff) & 63;
    L6: {
     if (l7 + Integer.MIN_VALUE > 2147483615) { break L6; }
     l6 = ((l6 << 6) & 1984) | l8;
     break L5;
    }
    l9 = (b[((int) l2) - 58910] & 0xff) & 63;
    L7: {
     if (l7 + Integer.MIN_VALUE > 2147483631) { break L7; }
     l6 = ((l8 << 6) | ((l6 << 12) & 61440)) | l9;
     break L5;
    }
    l6 = ((l9 << 6) | ((l8 << 12) | ((l6 << 18) & 1835008))) | ((b[((int) l2) - 58909] & 0xff) & 63);
   }
   if ((l6 + -19968) + Integer.MIN_VALUE > -2147462657) { break L2; }
   if (l6 == 21040) { break L2; }
   if (l6 == 33267) { break L2; }
   if (f236(m, l6) != 0) { break L2; }
   L8: {
    L9: {
     if (l6 > 23566) { break L9; }
     L10: {
      if (l6 > 20942) { break L10; }
      if (l6 == 20010) { break L2; }
      if (l6 == 20056) { break L2; }
      if (l6 != 20491) { break L8; }
      break L2;
     }
     L11: {
      if (l6 > 21332) { break L11; }
      if (l6 == 20943) { break L2; }
      if (l6 != 21152) { break L8; }
      break L2;
     }
     if (l6 == 21333) { break L2; }
     if (l6 != 21934) { break L8; }
     break L2;
    }
    L12: {
     if (l6 > 30339) { break L12; }
     L13: {
      if (l6 > 27603) { break L13; }
      if (l6 == 23567) { break L2; }
      if (l6 != 26377) { break L8; }
      break L2;
     }
     if (l6 == 27604) { break L2; }
     if (l6 != 28187) { break L8; }
     break L2;
    }
    L14: {
     if (l6 > 38046) { break L14; }
     if (l6 == 30340) { break L2; }
     if (l6 != 37912) { break L8; }
     break L2;
    }
    if (l6 == 38047) { break L2; }
    if (l6 == 38500) { break L2; }
   }
   l5 = 1;
  }
  m.g0 = l4;
  final int t15 = l5;
  return t15;
 }
 throw State.trap();
}

static int f238(State m, long l0, long l1) {
 final byte[] b = m.bytes;
 long l2 = 0;
 long l3 = 0;
 long l4 = 0;
 long l5 = 0;
 int l6 = 0;
 int l7 = 0;
 int l8 = 0;
 int l9 = 0;
 int l10 = 0;
 int l11 = 0;
 m.g0 = l2 = m.g0 - 256L;
 L1: {
  L2: {
   L3: {
    if ((l2 = l2) < 16L) { break L3; }
    l3 = Words.get64(b, ((int) l1) - 58896);
    Words.put64(b, ((int) l2) - 58816, l4 = Words.get64(b, ((int) l1) - 58888));
    Words.put64(b, ((int) l2) - 58824, l3);
    Words.put64(b, ((int) l2) - 58840, Words.get64(b, ((int) l1) - 58912));
    Words.put64(b, ((int) l2) - 58832, Words.get64(b, ((int) l1) - 58904));
    Words.put64(b, ((int) l2) - 58808, Words.get64(b, ((int) l1) - 58880));
    Words.put64(b, ((int) l2) - 58800, Words.get64(b, ((int) l1) - 58872));
    b[((int) l2) - 58786] = (byte) ((l6 = (int) l0) >>> 24);
    Words.put16(b, ((int) l2) - 58788, (short) (l6 >>> 8));
    l7 = 0;
    if (f239(m, l6, l2 + 124L, l2 + 72L) == 0) { break L1; }
    L4: {
     if (f240(m, l3, l4) != 0) { break L4; }
     l8 = f241(m, l3, l4);
     L5: {
      if ((l0 & 1095216660480L) != 0L) { break L5; }
      if (l8 != 0) { break L1; }
      l1 = l3;
      l5 = l4;
      L6: {
       L7: while (true) {
        if (l5 == 0L) { break L6; }
        l8 = (l9 = (int) b[((int) l1) - 58912]) & 255;
        l0 = 1L;
        L8: {
         if (l9 > -1) { break L8; }
         l10 = (b[((int) l1) - 58911] & 0xff) & 63;
         L9: {
          if (l9 + Integer.MIN_VALUE > 2147483615) { break L9; }
          l8 = ((l8 << 6) & 1984) | l10;
          l0 = 2L;
          break L8;
         }
         l11 = (b[((int) l1) - 58910] & 0xff) & 63;
         L10: {
          if (l9 + Integer.MIN_VALUE > 2147483631) { break L10; }
          l8 = ((l10 << 6) | ((l8 << 12) & 61440)) | l11;
          l0 = 3L;
          break L8;
         }
         l8 = ((l11 << 6) | ((l10 << 12) | ((l8 << 18) & 1835008))) | ((b[((int) l1) - 58909] & 0xff) & 63);
         l0 = 4L;
        }
        l5 = l5 - l0;
        l1 = l1 + l0;
        if (l8 != 21448) { continue L7; }
        break L1;
       }
      }
      Words.put64(b, ((int) l2) - 58720, 0L);
      Words.put64(b, ((int) l2) - 58728, 0L);
      Words.put64(b, ((int) l2) - 58736, 0L);
      f242(m, l2 + 176L, l3, l4);
      L11: {
       if ((b[((int) l2) - 58736] & 0xff) != 1) { break L11; }
       f243(m, l2 + 24L, l6, Words.get64(b, ((int) l2) - 58728), Words.get64(b, ((int) l2) - 58720));
       l7 = b[((int) l2) - 58887] & 0xff;
       break L1;
      }
      if (l4 == 0L) { break L2; }
      l8 = (l7 = (int) b[((int) l3) - 58912]) & 255;
      l1 = 1L;
      L12: {
       if (l7 > -1) { break L12; }
       l9 = (b[((int) l3) - 58911] & 0xff) & 63;
       L13: {
        if (l7 + Integer.MIN_VALUE > 2147483615) { break L13; }
        l8 = ((l8 << 6) & 1984) | l9;
        l1 = 2L;
        break L12;
       }
       l10 = (b[((int) l3) - 58910] & 0xff) & 63;
       L14: {
        if (l7 + Integer.MIN_VALUE > 2147483631) { break L14; }
        l8 = ((l9 << 6) | ((l8 << 12) & 61440)) | l10;
        l1 = 3L;
        break L12;
       }
       l8 = ((l10 << 6) | ((l9 << 12) | ((l8 << 18) & 1835008))) | ((b[((int) l3) - 58909] & 0xff) & 63);
       l1 = 4L;
      }
      L15: {
       L16: {
        if (l8 > 35999) { break L16; }
        if (l8 == 45) { break L15; }
        if (l8 == 8722) { break L15; }
        break L2;
       }
       if (l8 == 36000) { break L15; }
       if (l8 == 65293) { break L15; }
       if (l8 != 36127) { break L2; }
      }
      f243(m, l2 + 40L, l6, l3 + l1, l4 - l1);
      l7 = b[((int) l2) - 58871] & 0xff;
      break L1;
     }
     L17: {
      if (l8 == 0) { break L17; }
      l1 = l3;
      l5 = l4;
      L18: while (true) {
       if (l5 == 0L) { break L1; }
       l8 = (l9 = (int) b[((int) l1) - 58912]) & 255;
       l0 = 1L;
       L19: {
        if (l9 > -1) { break L19; }
        l10 = (b[((int) l1) - 58911] & 0xff) & 63;
        L20: {
         if (l9 + Integer.MIN_VALUE > 2147483615) { break L20; }
         l8 = ((l8 << 6) & 1984) | l10;
         l0 = 2L;
         break L19;
        }
        l11 = (b[((int) l1) - 58910] & 0xff) & 63;
        L21: {
         if (l9 + Integer.MIN_VALUE > 2147483631) { break L21; }
         l8 = ((l10 << 6) | ((l8 << 12) & 61440)) | l11;
         l0 = 3L;
         break L19;
        }
        l8 = ((l11 << 6) | ((l10 << 12) | ((l8 << 18) & 1835008))) | ((b[((int) l1) - 58909] & 0xff) & 63);
        l0 = 4L;
       }
       Core2.f61(m, l2 + 64L, l8);
       L22: {
        if ((b[((int) l2) - 58848] & 0xff) != 1) { break L22; }
        if (((b[((int) l2) - 58847] & 0xff) & 255) != 0) { break L17; }
       }
       if (l8 == 38646) { break L17; }
       l1 = l1 + l0;
       l5 = l5 - l0;
       if (l8 != 12295) { continue L18; }
       break L18;
      }
     }
     Words.put64(b, ((int) l2) - 58680, 0L);
     Words.put64(b, ((int) l2) - 58688, 0L);
     Words.put64(b, ((int) l2) - 58696, 0L);
     Words.put64(b, ((int) l2) - 58704, 0L);
     Words.put64(b, ((int) l2) - 58712, 0L);
     Words.put64(b, ((int) l2) - 58720, 0L);
     Words.put64(b, ((int) l2) - 58728, 0L);
     Words.put64(b, ((int) l2) - 58736, 0L);
     Core3.f80(m, l2 + 176L, l3, l4, l6);
     Words.put64(b, ((int) l2) - 58784, Words.get64(b, ((int) l2) - 58720));
     Words.put64(b, ((int) l2) - 58776, Words.get64(b, ((int) l2) - 58712));
     Words.put64(b, ((int) l2) - 58768, Words.get64(b, ((int) l2) - 58704));
     Words.put64(b, ((int) l2) - 58760, Words.get64(b, ((int) l2) - 58696));
     Words.put64(b, ((int) l2) - 58752, Words.get64(b, ((int) l2) - 58688));
     Words.put64(b, ((int) l2) - 58744, Words.get64(b, ((int) l2) - 58680));
     L23: {
      if ((l6 = b[((int) l2) - 58736] & 0xff) != 0) { break L23; }
      m.fill((int) (l2 + 176L), 0, (int) 80L);
      Core2.f52(m, l2 + 48L, l2 + 176L, l2 + 128L);
     }
     l7 = (l6 == 0) ? 1 : 0;
     break L1;
    }
    if ((l0 & 1099511627776L) == 0L) { break L1; }
    L24: {
     if (l4 == 0L) { break L24; }
     l7 = 0;
     L25: while (true) {
      l6 = (l8 = (int) b[((int) l3) - 58912]) & 255;
      l1 = 1L;
      L26: {
       if (l8 > -1) { break L26; }
       l9 = (b[((int) l3) - 58911] & 0xff) & 63;
       L27: {
        if (l8 + Integer.MIN_VALUE > 2147483615) { break L27; }
        l6 = ((l6 << 6) & 1984) | l9;
        l1 = 2L;
        break L26;
       }
       l10 = (b[((int) l3) - 58910] & 0xff) & 63;
       L28: {
        if (l8 + Integer.MIN_VALUE > 2147483631) { break L28; }
        l6 = ((l9 << 6) | ((l6 << 12) & 61440)) | l10;
        l1 = 3L;
        break L26;
       }
       l6 = ((l10 << 6) | ((l9 << 12) | ((l6 << 18) & 1835008))) | ((b[((int) l3) - 58909] & 0xff) & 63);
       l1 = 4L;
      }
      l4 = l4 - l1;
      l3 = l3 + l1;
      l8 = 0;
      L29: {
       if ((l7 & 1) != 0) { break L29; }
       L30: {
        if (l6 == 65296) { break L30; }
        if (l6 != 48) { break L29; }
       }
       if (l4 == 0L) { break L29; }
       l8 = (l9 = (int) b[((int) l3) - 58912]) & 255;
       L31: {
        if (l9 > -1) { break L31; }
        l10 = (b[((int) l3) - 58911] & 0xff) & 63;
        L32: {
         if (l9 + Integer.MIN_VALUE > 2147483615) { break L32; }
         l8 = ((l8 << 6) & 1984) | l10;
         break L31;
        }
        l11 = (b[((int) l3) - 58910] & 0xff) & 63;
        L33: {
         if (l9 + Integer.MIN_VALUE > 2147483631) { break L33; }
         l8 = ((l10 << 6) | ((l8 << 12) & 61440)) | l11;
         break L31;
        }
        l8 = ((l11 << 6) | ((l10 << 12) | ((l8 << 18) & 1835008))) | ((b[((int) l3) - 58909] & 0xff) & 63);
       }
       l8 = (((l8 + -48) + Integer.MIN_VALUE < -2147483638) | ((l8 + -65296) + Integer.MIN_VALUE < -2147483638)) ? 1 : 0;
      }
      f244(m, l2 + 8L, l8, l6);
      L34: {
       L35: {
        if (((l7 | l8) & 1) == 0) { break L35; }
        l7 = l7 & (l8 ^ 1);
        break L34;
       }
       l7 = (((l6 + -48) + Integer.MIN_VALUE < -2147483638) | ((l6 + -65296) + Integer.MIN_VALUE < -2147483638)) ? 1 : 0;
      }
      if (l4 != 0L) { continue L25; }
      break L25;
     }
    }
    l7 = 1;
    break L1;
   }
   throw State.trap();
  }
  f243(m, l2 + 32L, l6, l3, l4);
  l7 = b[((int) l2) - 58879] & 0xff;
 }
 m.g0 = l2 + 256L;
 return l7 & 1;
}

static int f239(State m, int l0, long l1, long l2) {
 final byte[] b = m.bytes;
 long l3 = 0;
 long l4 = 0;
 long l5 = 0;
 long l6 = 0;
 long l7 = 0;
 long l8 = 0;
 long l9 = 0;
 int l10 = 0;
 int l11 = 0;
 int l12 = 0;
 int l13 = 0;
 int l14 = 0;
 int l15 = 0;
 int l16 = 0;
 m.g0 = l3 = m.g0 - 128L;
 L1: {
  L2: {
   L3: {
    L4: {
     L5: {
      L6: {
       if ((l3 = l3) < 16L) { break L6; }
       l4 = Words.get64(b, ((int) l2) - 58872);
       l5 = Words.get64(b, ((int) l2) - 58880);
       l6 = Words.get64(b, ((int) l2) - 58888);
       l7 = Words.get64(b, ((int) l2) - 58896);
       l8 = Words.get64(b, ((int) l2) - 58904);
       l2 = Words.get64(b, ((int) l2) - 58912);
       l10 = b[((int) l1) - 58910] & 0xff;
       l11 = b[((int) l1) - 58912] & 0xff;
       if (((b[((int) l1) - 58911] & 0xff) & 1) != 0) { break L3; }
       Words.put32(b, ((int) l3) - 58852, 0);
       L7: {
        L8: {
         L9: {
          if ((l1 = l6 + -1L) + Long.MIN_VALUE > -9223372036854775806L) { break L9; }
          L10: {
           switch ((int) l1) {
           case 1: break L9;
           case 2: break L10;
           default: break L5;
           }
          }
          if (Words.get32(b, State.far((int) (l1 = ((((l13 = (((b[((int) l7) - 58911] & 0xff) << 8) | (l12 = b[((int) l7) - 58912] & 0xff)) | ((b[((int) l7) - 58910] & 0xff) << 16)) & 0xffffffffL) * 953497L) >>> 22L) & 1016L), 66852)) != l13) { break L8; }
          if (((b[((int) (l1 + 66856L)) - 58912] & 0xff) & 255) == 2) { break L8; }
          break L4;
         }
         if (l6 + Long.MIN_VALUE > -9223372036854775804L) { break L3; }
         if (l6 == 0L) { break L7; }
         l12 = b[((int) l7) - 58912] & 0xff;
        }
        if (((int) (byte) l12) > -1) { break L3; }
       }
       Core3.f113(m, l3 + 60L, l7, l6);
       if ((b[((int) l3) - 58852] & 0xff) != 1) { break L3; }
       if (((b[((int) l3) - 58849] & 0xff) & 1) == 0) { break L3; }
       if (l6 == 0L) { break L2; }
       l12 = b[((int) l7) - 58912] & 0xff;
       break L4;
      }
      throw State.trap();
     }
     if ((((l12 = b[((int) l7) - 58912] & 0xff) + -58) & 255) + Integer.MIN_VALUE >= -2147483402) { break L3; }
    }
    if (((int) (byte) l12) > -1) { break L2; }
    if ((l13 = l12 & 255) + Integer.MIN_VALUE < -2147483424) { break L2; }
    l14 = (b[((int) l7) - 58911] & 0xff) & 63;
    l15 = (b[((int) l7) - 58910] & 0xff) & 63;
    L11: {
     L12: {
      if ((l12 & 255) + Integer.MIN_VALUE > -2147483409) { break L12; }
      l12 = ((l14 << 6) | ((l13 << 12) & 61440)) | l15;
      l1 = 3L;
      break L11;
     }
     l12 = ((l15 << 6) | ((l14 << 12) | ((l13 << 18) & 1835008))) | ((b[((int) l7) - 58909] & 0xff) & 63);
     l1 = 4L;
    }
    if (l12 != 21313) { break L2; }
    if (l6 != l1) { break L2; }
    L13: {
     L14: {
      L15: {
       if (l4 == 0L) { break L15; }
       if ((l12 = (int) b[((int) l5) - 58912]) > -1) { break L15; }
       if (l12 + Integer.MIN_VALUE < 2147483616) { break L15; }
       l13 = l12 & 255;
       l14 = (b[((int) l5) - 58911] & 0xff) & 63;
       l15 = (b[((int) l5) - 58910] & 0xff) & 63;
       L16: {
        L17: {
         if (l12 + Integer.MIN_VALUE > 2147483631) { break L17; }
         l12 = ((l14 << 6) | ((l13 << 12) & 61440)) | l15;
         break L16;
        }
        l12 = ((l15 << 6) | ((l14 << 12) | ((l13 << 18) & 1835008))) | ((b[((int) l5) - 58909] & 0xff) & 63);
       }
       L18: {
        L19: {
         if (l12 > 23680) { break L19; }
         L20: {
          if (l12 > 21494) { break L20; }
          switch (l12 + -20803) {
          case 0: case 8: break L14;
          case 1: case 2: case 3: case 4: case 5: case 6: case 7: break L15;
          default: break L18;
          }
         }
         if (l12 == 21495) { break L14; }
         if (l12 == 21544) { break L14; }
         if (l12 != 22136) { break L15; }
         break L14;
        }
        L21: {
         if (l12 > 31185) { break L21; }
         if (l12 == 23681) { break L14; }
         if (l12 == 24230) { break L14; }
         if (l12 != 27506) { break L15; }
         break L14;
        }
        if (l12 == 31186) { break L14; }
        if (l12 == 31859) { break L14; }
        if (l12 == 34399) { break L14; }
        break L15;
       }
       if (l12 == 21319) { break L14; }
      }
      if (Core5.f157(m, 98020L, 7L, 98048L, 9L, l5, l4) != 0) { break L14; }
      if (Core5.f157(m, 98084L, 2L, 98092L, 4L, l5, l4) != 0) { break L14; }
      if (Core5.f157(m, 98108L, 5L, 98128L, 1L, l5, l4) != 0) { break L14; }
      if (Core5.f157(m, 86328L, 1L, 83844L, 1L, l5, l4) != 0) { break L14; }
      if (l8 == 0L) { break L2; }
      if (((int) b[((int) ((l1 = l2 + l8) + -1L)) - 58912]) > -1) { break L2; }
      l9 = -2L;
      L22: {
       if ((l12 = b[((int) (l1 + -2L)) - 58912] & 0xff) + Integer.MIN_VALUE > -2147483457) { break L22; }
       l9 = ((b[((int) (l1 + -3L)) - 58912] & 0xff) + Integer.MIN_VALUE > -2147483457) ? -3L : -4L;
      }
      if ((l13 = (int) b[((int) (l1 = (l2 + l9) + l8)) - 58912]) > -1) { break L2; }
      if (l13 + Integer.MIN_VALUE < 2147483616) { break L2; }
      l14 = l13 & 255;
      l15 = (b[((int) l1) - 58911] & 0xff) & 63;
      l16 = (b[((int) l1) - 58910] & 0xff) & 63;
      L23: {
       L24: {
        if (l13 + Integer.MIN_VALUE > 2147483631) { break L24; }
        l13 = ((l15 << 6) | ((l14 << 12) & 61440)) | l16;
        break L23;
       }
       l13 = ((l16 << 6) | ((l15 << 12) | ((l14 << 18) & 1835008))) | ((b[((int) l1) - 58909] & 0xff) & 63);
      }
      if (l13 == 27599) { break L13; }
      break L2;
     }
     if (l8 == 0L) { break L3; }
     if (((int) b[((int) ((l1 = l2 + l8) + -1L)) - 58912]) > -1) { break L3; }
     l12 = b[((int) (l1 + -2L)) - 58912] & 0xff;
    }
    l1 = -2L;
    L25: {
     if ((l12 & 255) + Integer.MIN_VALUE > -2147483457) { break L25; }
     l1 = ((b[((int) ((l2 + l8) + -3L)) - 58912] & 0xff) + Integer.MIN_VALUE > -2147483457) ? -3L : -4L;
    }
    if ((l12 = (int) b[((int) (l1 = (l2 + l1) + l8)) - 58912]) > -1) { break L3; }
    if (l12 + Integer.MIN_VALUE < 2147483616) { break L3; }
    l13 = l12 & 255;
    l14 = (b[((int) l1) - 58911] & 0xff) & 63;
    l15 = (b[((int) l1) - 58910] & 0xff) & 63;
    L26: {
     L27: {
      if (l12 + Integer.MIN_VALUE > 2147483631) { break L27; }
      l12 = ((l14 << 6) | ((l13 << 12) & 61440)) | l15;
      break L26;
     }
     l12 = ((l15 << 6) | ((l14 << 12) | ((l13 << 18) & 1835008))) | ((b[((int) l1) - 58909] & 0xff) & 63);
    }
    L28: {
     if (l12 > 21643) { break L28; }
     if (l12 == 12289) { break L2; }
     if (l12 == 19982) { break L2; }
     if (l12 == 21040) { break L2; }
     break L3;
    }
    L29: {
     if (l12 > 33266) { break L29; }
     if (l12 == 21644) { break L2; }
     if (l12 == 25110) { break L2; }
     break L3;
    }
    if (l12 == 33267) { break L2; }
    if (l12 == 33287) { break L2; }
   }
   L30: {
    if ((l11 & 1) != 0) { break L30; }
    Words.put64(b, ((int) l3) - 58808, l4);
    Words.put64(b, ((int) l3) - 58816, l5);
    Words.put64(b, ((int) l3) - 58824, l6);
    Words.put64(b, ((int) l3) - 58832, l7);
    Words.put64(b, ((int) l3) - 58840, l8);
    Words.put64(b, ((int) l3) - 58848, l2);
    if (Core4.f142(m, l3 + 64L) != 0) { break L2; }
   }
   Words.put64(b, ((int) l3) - 58864, l4);
   Words.put64(b, ((int) l3) - 58872, l5);
   Words.put64(b, ((int) l3) - 58880, l6);
   Words.put64(b, ((int) l3) - 58888, l7);
   Words.put64(b, ((int) l3) - 58896, l8);
   Words.put64(b, ((int) l3) - 58904, l2);
   Core4.f126(m, l3, l3 + 8L);
   L31: {
    if (((b[((int) l3) - 58912] & 0xff) & 1) == 0) { break L31; }
    l11 = 0;
    if (((b[((int) l3) - 58911] & 0xff) & 255) == 3) { break L1; }
    if ((l10 & 1) == 0) { break L1; }
   }
   l11 = 0;
   if (Core4.f143(m, l2, l8, l5, l4) != 0) { break L1; }
   Words.put64(b, ((int) l3) - 58792, 0L);
   Words.put64(b, ((int) l3) - 58800, 0L);
   Words.put64(b, ((int) l3) - 58808, 0L);
   Words.put64(b, ((int) l3) - 58816, 0L);
   Words.put64(b, ((int) l3) - 58824, 0L);
   Words.put64(b, ((int) l3) - 58832, 0L);
   Words.put64(b, ((int) l3) - 58840, 0L);
   Words.put64(b, ((int) l3) - 58848, 0L);
   Core3.f80(m, l3 + 64L, l7, l6, l0);
   l11 = ((b[((int) l3) - 58848] & 0xff) == 0) ? 1 : 0;
   break L1;
  }
  l11 = 0;
 }
 m.g0 = l3 + 128L;
 return l11;
}

static int f240(State m, long l0, long l1) {
 final byte[] b = m.bytes;
 int l2 = 0;
 int l3 = 0;
 int l4 = 0;
 int l5 = 0;
 long l6 = 0;
 L1: {
  if (m.g0 < 16L) { break L1; }
  L2: {
   if (l1 == 0L) { break L2; }
   L3: while (true) {
    l3 = (l2 = (int) b[((int) l0) - 58912]) & 255;
    l6 = 1L;
    L4: {
     if (l2 > -1) { break L4; }
     l4 = (b[((int) l0) - 58911] & 0xff) & 63;
     L5: {
      if (l2 + Integer.MIN_VALUE > 2147483615) { break L5; }
      l3 = ((l3 << 6) & 1984) | l4;
      l6 = 2L;
      break L4;
     }
     l5 = (b[((int) l0) - 58910] & 0xff) & 63;
     L6: {
      if (l2 + Integer.MIN_VALUE > 2147483631) { break L6; }
      l3 = ((l4 << 6) | ((l3 << 12) & 61440)) | l5;
      l6 = 3L;
      break L4;
     }
     l3 = ((l5 << 6) | ((l4 << 12) | ((l3 << 18) & 1835008))) | ((b[((int) l0) - 58909] & 0xff) & 63);
     l6 = 4L;
    }
    L7: {
     if ((l3 + -48) + Integer.MIN_VALUE < -2147483638) { break L7; }
     if ((l3 + -65296) + Integer.MIN_VALUE < -2147483638) { break L7; }
     if ((l3 + -44) + Integer.MIN_VALUE < -2147483645) { break L7; }
     if ((l3 + -65292) + Integer.MIN_VALUE < -2147483645) { break L7; }
     if (l3 == 8722) { break L7; }
     return 0;
    }
    l0 = l0 + l6;
    if ((l1 = l1 - l6) != 0L) { continue L3; }
    break L3;
   }
  }
  return 1;
 }
 throw State.trap();
}

static int f241(State m, long l0, long l1) {
 final byte[] b = m.bytes;
 long l2 = 0;
 long l3 = 0;
 long l4 = 0;
 long l5 = 0;
 int l6 = 0;
 int l7 = 0;
 int l8 = 0;
 int l9 = 0;
 m.g0 = l2 = m.g0 - 48L;
 L1: {
  if ((l3 = l2) < 16L) { break L1; }
  Words.put64(b, ((int) l3) - 58872, 0L);
  Words.put64(b, ((int) l3) - 58880, 0L);
  Words.put64(b, ((int) l3) - 58888, 0L);
  Words.put64(b, ((int) l3) - 58896, 0L);
  Words.put64(b, ((int) l3) - 58904, 0L);
  l2 = l0;
  l4 = l1;
  L2: {
   L3: while (true) {
    L4: {
     if (!(l4 == 0L)) { break L4; }
     l6 = 0;
     break L2;
    }
    l6 = (l7 = (int) b[((int) l2) - 58912]) & 255;
    l5 = 1L;
    L5: {
     if (l7 > -1) { break L5; }
     l8 = (b[((int) l2) - 58911] & 0xff) & 63;
     L6: {
      if (l7 + Integer.MIN_VALUE > 2147483615) { break L6; }
      l6 = ((l6 << 6) & 1984) | l8;
      l5 = 2L;
      break L5;
     }
     l9 = (b[((int) l2) - 58910] & 0xff) & 63;
     L7: {
      if (l7 + Integer.MIN_VALUE > 2147483631) { break L7; }
      l6 = ((l8 << 6) | ((l6 << 12) & 61440)) | l9;
      l5 = 3L;
      break L5;
     }
     l6 = ((l9 << 6) | ((l8 << 12) | ((l6 << 18) & 1835008))) | ((b[((int) l2) - 58909] & 0xff) & 63);
     l5 = 4L;
    }
    L8: {
     if ((l6 + -48) + Integer.MIN_VALUE < -2147483638) { break L8; }
     l4 = l4 - l5;
     l2 = l2 + l5;
     if ((l6 + -65296) + Integer.MIN_VALUE > -2147483639) { continue L3; }
    }
    break L3;
   }
   f245(m, l3 + 8L, l0, l1);
   l6 = ((b[((int) l3) - 58904] & 0xff) != 1) ? 1 : 0;
  }
  m.g0 = l3 + 48L;
  final int t9 = l6;
  return t9;
 }
 throw State.trap();
}

static void f242(State m, long l0, long l1, long l2) {
 final byte[] b = m.bytes;
 int l3 = 0;
 int l4 = 0;
 int l5 = 0;
 int l6 = 0;
 int l7 = 0;
 long l8 = 0;
 long l9 = 0;
 L1: {
  if (m.g0 < 16L) { break L1; }
  L2: {
   L3: {
    L4: {
     L5: {
      if (l2 == 0L) { break L5; }
      l4 = (l3 = (int) b[((int) l1) - 58912]) & 255;
      l8 = 1L;
      L6: {
       if (l3 > -1) { break L6; }
       l5 = (b[((int) l1) - 58911] & 0xff) & 63;
       L7: {
        if (l3 + Integer.MIN_VALUE > 2147483615) { break L7; }
        l4 = ((l4 << 6) & 1984) | l5;
        l8 = 2L;
        break L6;
       }
       l6 = (b[((int) l1) - 58910] & 0xff) & 63;
       L8: {
        if (l3 + Integer.MIN_VALUE > 2147483631) { break L8; }
        l4 = ((l5 << 6) | ((l4 << 12) & 61440)) | l6;
        l8 = 3L;
        break L6;
       }
       l4 = ((l6 << 6) | ((l5 << 12) | ((l4 << 18) & 1835008))) | ((b[((int) l1) - 58909] & 0xff) & 63);
       l8 = 4L;
      }
      if (l2 == l8) { break L2; }
      l3 = (l5 = (int) b[((int) (l9 = l1 + l8)) - 58912]) & 255;
      l1 = 1L;
      if (l5 > -1) { break L3; }
      l6 = (b[((int) l9) - 58911] & 0xff) & 63;
      L9: {
       if (l5 + Integer.MIN_VALUE > 2147483615) { break L9; }
       l3 = ((l3 << 6) & 1984) | l6;
       l1 = 2L;
       break L3;
      }
      l7 = (b[((int) l9) - 58910] & 0xff) & 63;
      if (l5 + Integer.MIN_VALUE > 2147483631) { break L4; }
      l3 = ((l6 << 6) | ((l3 << 12) & 61440)) | l7;
      l1 = 3L;
      break L3;
     }
     Words.put64(b, ((int) l0) - 58896, 0L);
     Words.put64(b, ((int) l0) - 58904, 0L);
     Words.put64(b, ((int) l0) - 58912, 0L);
     return;
    }
    l3 = ((l7 << 6) | ((l6 << 12) | ((l3 << 18) & 1835008))) | ((b[((int) l9) - 58909] & 0xff) & 63);
    l1 = 4L;
   }
   final int t10 = (int) (l0 + 16L);
   final long t11 = l2 - (l8 + l1);
   final int t12 = l3 = ((l4 == 38646) & (l3 == 19979)) ? 1 : 0;
   Words.put64(b, t10 - 58912, t12 != 0 ? t11 : 0L);
   final int t13 = (int) (l0 + 8L);
   final long t14 = l9 + l1;
   final int t15 = l3;
   Words.put64(b, t13 - 58912, t15 != 0 ? t14 : 0L);
   Words.put64(b, ((int) l0) - 58912, l3 & 0xffffffffL);
   return;
  }
  Words.put64(b, ((int) l0) - 58896, 0L);
  Words.put64(b, ((int) l0) - 58904, 0L);
  Words.put64(b, ((int) l0) - 58912, 0L);
  return;
 }
 throw State.trap();
}

static void f243(State m, long l0, int l1, long l2, long l3) {
 final byte[] b = m.bytes;
 long l4 = 0;
 long l5 = 0;
 long l6 = 0;
 long l7 = 0;
 long l8 = 0;
 long l9 = 0;
 long l10 = 0;
 long l11 = 0;
 int l12 = 0;
 int l13 = 0;
 int l14 = 0;
 int l15 = 0;
 int l16 = 0;
 int l17 = 0;
 m.g0 = l4 = m.g0 - 240L;
 L1: {
  L2: {
   L3: {
    L4: {
     L5: {
      L6: {
       if ((l4 = l4) < 16L) { break L6; }
       Words.put64(b, ((int) l4) - 58808, 0L);
       Words.put64(b, ((int) l4) - 58816, 0L);
       Words.put64(b, ((int) l4) - 58824, 0L);
       Words.put64(b, ((int) l4) - 58832, 0L);
       Words.put64(b, ((int) l4) - 58840, 0L);
       f245(m, l4 + 72L, l2, l3);
       if ((b[((int) l4) - 58840] & 0xff) != 1) { break L2; }
       l5 = Words.get64(b, ((int) l4) - 58808);
       l6 = Words.get64(b, ((int) l4) - 58816);
       l7 = Words.get64(b, ((int) l4) - 58824);
       l8 = Words.get64(b, ((int) l4) - 58832);
       Words.put64(b, ((int) l4) - 58744, 0L);
       Words.put64(b, ((int) l4) - 58752, 0L);
       Words.put64(b, ((int) l4) - 58760, 0L);
       Words.put64(b, ((int) l4) - 58768, 0L);
       Words.put64(b, ((int) l4) - 58776, 0L);
       Words.put64(b, ((int) l4) - 58784, 0L);
       Words.put64(b, ((int) l4) - 58792, 0L);
       Words.put64(b, ((int) l4) - 58800, 0L);
       Core3.f80(m, l4 + 112L, l2, l3, l1);
       l12 = 0;
       if ((b[((int) l4) - 58800] & 0xff) != 0) { break L1; }
       l9 = Words.get64(b, ((int) l4) - 58776);
       l10 = Words.get64(b, ((int) l4) - 58784);
       l13 = b[((int) l4) - 58752] & 0xff;
       l3 = l6;
       l11 = l5;
       L7: {
        L8: while (true) {
         if (l11 == 0L) { break L7; }
         l15 = (l14 = (int) b[((int) l3) - 58912]) & 255;
         l2 = 1L;
         L9: {
          if (l14 > -1) { break L9; }
          l16 = (b[((int) l3) - 58911] & 0xff) & 63;
          L10: {
           if (l14 + Integer.MIN_VALUE > 2147483615) { break L10; }
           l15 = ((l15 << 6) & 1984) | l16;
           l2 = 2L;
           break L9;
          }
          l17 = (b[((int) l3) - 58910] & 0xff) & 63;
          L11: {
           if (l14 + Integer.MIN_VALUE > 2147483631) { break L11; }
           l15 = ((l16 << 6) | ((l15 << 12) & 61440)) | l17;
           l2 = 3L;
           break L9;
          }
          l15 = ((l17 << 6) | ((l16 << 12) | ((l15 << 18) & 1835008))) | ((b[((int) l3) - 58909] & 0xff) & 63);
          l2 = 4L;
         }
         Core2.f61(m, l4 + 48L, l15);
         L12: {
          if ((b[((int) l4) - 58864] & 0xff) != 1) { break L12; }
          l11 = l11 - l2;
          l3 = l3 + l2;
          if (((b[((int) l4) - 58863] & 0xff) & 255) + Integer.MIN_VALUE > -2147483647) { continue L8; }
         }
         break L8;
        }
        if (l5 == 0L) { break L5; }
        l15 = (l14 = (int) b[((int) l6) - 58912]) & 255;
        l3 = 1L;
        L13: {
         if (l14 > -1) { break L13; }
         l16 = (b[((int) l6) - 58911] & 0xff) & 63;
         L14: {
          if (l14 + Integer.MIN_VALUE > 2147483615) { break L14; }
          l15 = ((l15 << 6) & 1984) | l16;
          l3 = 2L;
          break L13;
         }
         l17 = (b[((int) l6) - 58910] & 0xff) & 63;
         L15: {
          if (l14 + Integer.MIN_VALUE > 2147483631) { break L15; }
          l15 = ((l16 << 6) | ((l15 << 12) & 61440)) | l17;
          l3 = 3L;
          break L13;
         }
         l15 = ((l17 << 6) | ((l16 << 12) | ((l15 << 18) & 1835008))) | ((b[((int) l6) - 58909] & 0xff) & 63);
         l3 = 4L;
        }
        L16: {
         L17: {
          if (l15 > 35999) { break L17; }
          if (l15 == 45) { break L16; }
          if (l15 == 8722) { break L16; }
          break L5;
         }
         if (l15 == 36000) { break L16; }
         if (l15 == 65293) { break L16; }
         if (l15 != 36127) { break L5; }
        }
        f246(m, l4 + 40L, l1, l6 + l3, l5 - l3);
        l15 = b[((int) l4) - 58871] & 0xff;
        break L4;
       }
       Words.put64(b, ((int) l4) - 58696, 0L);
       Words.put64(b, ((int) l4) - 58704, 1L);
       Words.put64(b, ((int) l4) - 58720, l10);
       Words.put64(b, ((int) l4) - 58688, 0L);
       Words.put64(b, ((int) l4) - 58680, 0L);
       Words.put64(b, ((int) l4) - 58712, l9);
       m.fill((int) (l4 + 112L), 0, (int) 80L);
       Core2.f52(m, l4 + 16L, l4 + 112L, l4 + 192L);
       break L3;
      }
      throw State.trap();
     }
     f246(m, l4 + 32L, l1, l6, l5);
     l15 = b[((int) l4) - 58879] & 0xff;
    }
    if ((l15 & 1) == 0) { break L1; }
   }
   L18: {
    if ((l13 & 255) != 2) { break L18; }
    l12 = 1;
    break L1;
   }
   Words.put64(b, ((int) l4) - 58744, 0L);
   Words.put64(b, ((int) l4) - 58752, 0L);
   Words.put64(b, ((int) l4) - 58760, 0L);
   Words.put64(b, ((int) l4) - 58768, 0L);
   Words.put64(b, ((int) l4) - 58776, 0L);
   Words.put64(b, ((int) l4) - 58784, 0L);
   Words.put64(b, ((int) l4) - 58792, 0L);
   Words.put64(b, ((int) l4) - 58800, 0L);
   Core3.f80(m, l4 + 112L, l8, l7, l1);
   if ((b[((int) l4) - 58800] & 0xff) != 0) { break L1; }
   final int t19 = (Words.get64(b, ((int) l4) - 58784) + Long.MIN_VALUE > -9223372036854774809L) ? 1 : 0;
   final int t20 = ((l3 = Words.get64(b, ((int) l4) - 58776)) > 0L) ? 1 : 0;
   final int t21 = (l3 == 0L) ? 1 : 0;
   if ((t21 != 0 ? t19 : t20) != 0) { break L1; }
   f246(m, l4 + 8L, l1, l8, l7);
   l12 = b[((int) l4) - 58903] & 0xff;
   break L1;
  }
  L22: {
   if (!(l3 == 0L)) { break L22; }
   l12 = 0;
   break L1;
  }
  L23: {
   if ((l15 = (int) b[((int) (l2 + (l11 = l3 + -1L))) - 58912]) >= 0) { break L23; }
   l11 = -2L;
   L24: {
    if ((b[((int) ((l6 = l2 + l3) + -2L)) - 58912] & 0xff) + Integer.MIN_VALUE > -2147483457) { break L24; }
    l11 = ((b[((int) (l6 + -3L)) - 58912] & 0xff) + Integer.MIN_VALUE > -2147483457) ? -3L : -4L;
   }
   l15 = (l14 = (int) b[((int) (l6 = l2 + (l11 = l11 + l3))) - 58912]) & 255;
   if (l14 > -1) { break L23; }
   l16 = (b[((int) l6) - 58911] & 0xff) & 63;
   L25: {
    if (l14 + Integer.MIN_VALUE > 2147483615) { break L25; }
    l15 = ((l15 << 6) & 1984) | l16;
    break L23;
   }
   l12 = (b[((int) l6) - 58910] & 0xff) & 63;
   L26: {
    if (l14 + Integer.MIN_VALUE > 2147483631) { break L26; }
    l15 = ((l16 << 6) | ((l15 << 12) & 61440)) | l12;
    break L23;
   }
   l15 = ((l12 << 6) | ((l16 << 12) | ((l15 << 18) & 1835008))) | ((b[((int) l6) - 58909] & 0xff) & 63);
  }
  L27: {
   L28: {
    if (l15 == 37) { break L28; }
    if (l15 == 65285) { break L28; }
    if (l15 != 8240) { break L27; }
   }
   f246(m, l4 + 64L, l1, l2, l11);
   l12 = (b[((int) l4) - 58847] & 0xff) & 1;
   break L1;
  }
  f246(m, l4 + 56L, l1, l2, l3);
  l12 = b[((int) l4) - 58855] & 0xff;
 }
 b[((int) l0) - 58911] = (byte) l12;
 b[((int) l0) - 58912] = (byte) 0;
 m.g0 = l4 + 240L;
}

static void f244(State m, long l0, int l1, int l2) {
 final byte[] b = m.bytes;
 long l3 = 0;
 long l4 = 0;
 L1: {
  L2: {
   L3: {
    if (m.g0 < 16L) { break L3; }
    l3 = 0L;
    l4 = 83372L;
    if (l1 != 0) { break L1; }
    l3 = 1L;
    l4 = 98132L;
    L4: {
     L5: {
      L6: {
       L7: {
        L8: {
         L9: {
          L10: {
           L11: {
            L12: {
             L13: {
              L14: {
               L15: {
                L16: {
                 switch (l2 + -45) {
                 case 0: break L2;
                 case 1: break L6;
                 case 2: break L4;
                 case 3: break L1;
                 case 4: break L15;
                 case 5: break L14;
                 case 6: break L13;
                 case 7: break L12;
                 case 8: break L11;
                 case 9: break L10;
                 case 10: break L9;
                 case 11: break L8;
                 case 12: break L7;
                 default: break L16;
                 }
                }
                switch (l2 + -65293) {
                case 0: break L2;
                case 1: break L6;
                case 2: break L4;
                case 3: break L1;
                case 4: break L15;
                case 5: break L14;
                case 6: break L13;
                case 7: break L12;
                case 8: break L11;
                case 9: break L10;
                case 10: break L9;
                case 11: break L8;
                case 12: break L7;
                default: break L5;
                }
               }
               l4 = 98133L;
               break L1;
              }
              l4 = 98134L;
              break L1;
             }
             l4 = 98135L;
             break L1;
            }
            l4 = 98136L;
            break L1;
           }
           l4 = 98137L;
           break L1;
          }
          l4 = 98138L;
          break L1;
         }
         l4 = 98139L;
         break L1;
        }
        l4 = 98140L;
        break L1;
       }
       l4 = 98141L;
       break L1;
      }
      l4 = 98142L;
      break L1;
     }
     if (l2 == 8722) { break L2; }
    }
    l4 = 83372L;
    l3 = 0L;
    break L1;
   }
   throw State.trap();
  }
  l4 = 77252L;
 }
 Words.put64(b, ((int) l0) - 58904, l3);
 Words.put64(b, ((int) l0) - 58912, l4);
}

static void f245(State m, long l0, long l1, long l2) {
 final byte[] b = m.bytes;
 int l3 = 0;
 int l4 = 0;
 int l5 = 0;
 int l6 = 0;
 int l7 = 0;
 long l8 = 0;
 long l9 = 0;
 long l10 = 0;
 long l11 = 0;
 L1: {
  if (m.g0 < 16L) { break L1; }
  L2: {
   if (l2 == 0L) { break L2; }
   l3 = b[((int) l1) - 58912] & 0xff;
   l8 = l2;
   l9 = l1;
   L3: while (true) {
    l10 = l8;
    l4 = l3 & 255;
    l11 = 1L;
    L4: {
     if (((int) (byte) l3) > -1) { break L4; }
     l5 = (b[((int) l9) - 58911] & 0xff) & 63;
     L5: {
      if ((l3 & 255) + Integer.MIN_VALUE > -2147483425) { break L5; }
      l4 = ((l4 << 6) & 1984) | l5;
      l11 = 2L;
      break L4;
     }
     l6 = (b[((int) l9) - 58910] & 0xff) & 63;
     L6: {
      if ((l3 & 255) + Integer.MIN_VALUE > -2147483409) { break L6; }
      l4 = ((l5 << 6) | ((l4 << 12) & 61440)) | l6;
      l11 = 3L;
      break L4;
     }
     l4 = ((l6 << 6) | ((l5 << 12) | ((l4 << 18) & 1835008))) | ((b[((int) l9) - 58909] & 0xff) & 63);
     l11 = 4L;
    }
    if ((l8 = l10 - l11) == 0L) { break L2; }
    if ((l3 = (int) b[((int) (l9 = l9 + l11)) - 58912]) > -1) { continue L3; }
    if (l3 + Integer.MIN_VALUE < 2147483616) { continue L3; }
    l5 = l3 & 255;
    l6 = (b[((int) l9) - 58911] & 0xff) & 63;
    l7 = (b[((int) l9) - 58910] & 0xff) & 63;
    L7: {
     L8: {
      if (l3 + Integer.MIN_VALUE > 2147483631) { break L8; }
      l5 = ((l6 << 6) | ((l5 << 12) & 61440)) | l7;
      l11 = 3L;
      break L7;
     }
     l5 = ((l7 << 6) | ((l6 << 12) | ((l5 << 18) & 1835008))) | ((b[((int) l9) - 58909] & 0xff) & 63);
     l11 = 4L;
    }
    if (l4 != 20998) { continue L3; }
    if (l5 != 20043) { continue L3; }
    break L3;
   }
   L9: {
    L10: {
     if ((l10 = l2 - l10) == 0L) { break L10; }
     if ((l8 = l8 - l11) == 0L) { break L10; }
     l11 = l9 + l11;
     l9 = 1L;
     break L9;
    }
    l11 = 0L;
    l8 = 0L;
    l1 = 0L;
    l10 = 0L;
    l9 = 0L;
   }
   Words.put64(b, ((int) l0) - 58912, l9);
   Words.put64(b, ((int) (l0 + 32L)) - 58912, l8);
   Words.put64(b, ((int) (l0 + 24L)) - 58912, l11);
   Words.put64(b, ((int) (l0 + 16L)) - 58912, l10);
   Words.put64(b, ((int) (l0 + 8L)) - 58912, l1);
   return;
  }
  Words.put64(b, ((int) l0) - 58880, 0L);
  Words.put64(b, ((int) l0) - 58888, 0L);
  Words.put64(b, ((int) l0) - 58896, 0L);
  Words.put64(b, ((int) l0) - 58904, 0L);
  Words.put64(b, ((int) l0) - 58912, 0L);
  return;
 }
 throw State.trap();
}

static void f246(State m, long l0, int l1, long l2, long l3) {
 final byte[] b = m.bytes;
 long l4 = 0;
 long l5 = 0;
 long l6 = 0;
 long l7 = 0;
 long l8 = 0;
 long l9 = 0;
 long l10 = 0;
 int l11 = 0;
 int l12 = 0;
 int l13 = 0;
 int l14 = 0;
 int l15 = 0;
 int l16 = 0;
 m.g0 = l4 = m.g0 - 336L;
 L1: {
  L2: {
   L3: {
    if ((l4 = l4) < 16L) { break L3; }
    Words.put64(b, ((int) l4) - 58776, 0L);
    Words.put64(b, ((int) l4) - 58784, 0L);
    Words.put64(b, ((int) l4) - 58792, 0L);
    Words.put64(b, ((int) l4) - 58800, 0L);
    Words.put64(b, ((int) l4) - 58808, 0L);
    L4: {
     if ((l11 = (l3 == 0L) ? 1 : 0) != 0) { break L4; }
     l13 = (l12 = (int) b[((int) l2) - 58912]) & 255;
     L5: {
      if (l12 > -1) { break L5; }
      l14 = (b[((int) l2) - 58911] & 0xff) & 63;
      L6: {
       if (l12 + Integer.MIN_VALUE > 2147483615) { break L6; }
       l13 = ((l13 << 6) & 1984) | l14;
       break L5;
      }
      l15 = (b[((int) l2) - 58910] & 0xff) & 63;
      L7: {
       if (l12 + Integer.MIN_VALUE > 2147483631) { break L7; }
       l13 = ((l14 << 6) | ((l13 << 12) & 61440)) | l15;
       break L5;
      }
      l13 = ((l15 << 6) | ((l14 << 12) | ((l13 << 18) & 1835008))) | ((b[((int) l2) - 58909] & 0xff) & 63);
     }
     l16 = 1;
     if ((l13 + -48) + Integer.MIN_VALUE < -2147483638) { break L1; }
     if ((l13 + -65296) + Integer.MIN_VALUE < -2147483638) { break L1; }
    }
    l5 = l2;
    l6 = l3;
    L8: {
     L9: {
      L10: {
       L11: while (true) {
        if (l6 == 0L) { break L10; }
        l13 = (l12 = (int) b[((int) l5) - 58912]) & 255;
        l7 = 1L;
        L12: {
         if (l12 > -1) { break L12; }
         l14 = (b[((int) l5) - 58911] & 0xff) & 63;
         L13: {
          if (l12 + Integer.MIN_VALUE > 2147483615) { break L13; }
          l13 = ((l13 << 6) & 1984) | l14;
          l7 = 2L;
          break L12;
         }
         l15 = (b[((int) l5) - 58910] & 0xff) & 63;
         L14: {
          if (l12 + Integer.MIN_VALUE > 2147483631) { break L14; }
          l13 = ((l14 << 6) | ((l13 << 12) & 61440)) | l15;
          l7 = 3L;
          break L12;
         }
         l13 = ((l15 << 6) | ((l14 << 12) | ((l13 << 18) & 1835008))) | ((b[((int) l5) - 58909] & 0xff) & 63);
         l7 = 4L;
        }
        Core2.f63(m, l4 + 96L, l13);
        L15: {
         if ((l13 + -58) + Integer.MIN_VALUE > 2147483637) { break L15; }
         l6 = l6 - l7;
         l5 = l5 + l7;
         if (((b[((int) l4) - 58816] & 0xff) & 255) == 1) { continue L11; }
        }
        break L11;
       }
       f247(m, l4 + 104L, l2, l3);
       if ((b[((int) l4) - 58808] & 0xff) != 1) { break L8; }
       l7 = Words.get64(b, ((int) l4) - 58776);
       l2 = Words.get64(b, ((int) l4) - 58784);
       l5 = Words.get64(b, ((int) l4) - 58792);
       l6 = Words.get64(b, ((int) l4) - 58800);
       Words.put64(b, ((int) l4) - 58600, 0L);
       Words.put64(b, ((int) l4) - 58608, 0L);
       Words.put64(b, ((int) l4) - 58616, 0L);
       Words.put64(b, ((int) l4) - 58624, 0L);
       Words.put64(b, ((int) l4) - 58632, 0L);
       Words.put64(b, ((int) l4) - 58640, 0L);
       Words.put64(b, ((int) l4) - 58648, 0L);
       Words.put64(b, ((int) l4) - 58656, 0L);
       Core3.f80(m, l4 + 256L, l6, l5, l1);
       Words.put64(b, ((int) l4) - 58768, Words.get64(b, ((int) l4) - 58640));
       Words.put64(b, ((int) l4) - 58760, Words.get64(b, ((int) l4) - 58632));
       Words.put64(b, ((int) l4) - 58752, Words.get64(b, ((int) l4) - 58624));
       Words.put64(b, ((int) l4) - 58744, Words.get64(b, ((int) l4) - 58616));
       Words.put64(b, ((int) l4) - 58736, Words.get64(b, ((int) l4) - 58608));
       Words.put64(b, ((int) l4) - 58728, Words.get64(b, ((int) l4) - 58600));
       if ((b[((int) l4) - 58656] & 0xff) == 0) { break L9; }
       l16 = 0;
       break L1;
      }
      l16 = 1;
      if (l11 != 0) { break L1; }
      L16: while (true) {
       l13 = (l12 = (int) b[((int) l2) - 58912]) & 255;
       l5 = 1L;
       L17: {
        if (l12 > -1) { break L17; }
        l14 = (b[((int) l2) - 58911] & 0xff) & 63;
        L18: {
         if (l12 + Integer.MIN_VALUE > 2147483615) { break L18; }
         l13 = ((l13 << 6) & 1984) | l14;
         l5 = 2L;
         break L17;
        }
        l15 = (b[((int) l2) - 58910] & 0xff) & 63;
        L19: {
         if (l12 + Integer.MIN_VALUE > 2147483631) { break L19; }
         l13 = ((l14 << 6) | ((l13 << 12) & 61440)) | l15;
         l5 = 3L;
         break L17;
        }
        l13 = ((l15 << 6) | ((l14 << 12) | ((l13 << 18) & 1835008))) | ((b[((int) l2) - 58909] & 0xff) & 63);
        l5 = 4L;
       }
       Core2.f63(m, l4 + 8L, l13);
       l2 = l2 + l5;
       if (!((l3 = l3 - l5) == 0L)) { continue L16; }
       break L1;
      }
     }
     m.fill((int) (l4 + 256L), 0, (int) 80L);
     Core2.f52(m, l4 + 24L, l4 + 256L, l4 + 144L);
     l16 = 1;
     if (l7 == 0L) { break L1; }
     L20: while (true) {
      l13 = (l12 = (int) b[((int) l2) - 58912]) & 255;
      l5 = 1L;
      L21: {
       if (l12 > -1) { break L21; }
       l14 = (b[((int) l2) - 58911] & 0xff) & 63;
       L22: {
        if (l12 + Integer.MIN_VALUE > 2147483615) { break L22; }
        l13 = ((l13 << 6) & 1984) | l14;
        l5 = 2L;
        break L21;
       }
       l15 = (b[((int) l2) - 58910] & 0xff) & 63;
       L23: {
        if (l12 + Integer.MIN_VALUE > 2147483631) { break L23; }
        l13 = ((l14 << 6) | ((l13 << 12) & 61440)) | l15;
        l5 = 3L;
        break L21;
       }
       l13 = ((l15 << 6) | ((l14 << 12) | ((l13 << 18) & 1835008))) | ((b[((int) l2) - 58909] & 0xff) & 63);
       l5 = 4L;
      }
      Core2.f63(m, l4 + 16L, l13);
      l2 = l2 + l5;
      if (!((l7 = l7 - l5) == 0L)) { continue L20; }
      break L1;
     }
    }
    L24: {
     if (f248(m, l2, l3) == 0) { break L24; }
     l16 = 1;
     if (l11 != 0) { break L1; }
     l8 = l4 + 272L;
     l9 = l2;
     l10 = l3;
     L25: while (true) {
      l13 = (l12 = (int) b[((int) l9) - 58912]) & 255;
      l5 = 1L;
      L26: {
       if (l12 > -1) { break L26; }
       l14 = (b[((int) l9) - 58911] & 0xff) & 63;
       L27: {
        if (l12 + Integer.MIN_VALUE > 2147483615) { break L27; }
        l13 = ((l13 << 6) & 1984) | l14;
        l5 = 2L;
        break L26;
       }
       l15 = (b[((int) l9) - 58910] & 0xff) & 63;
       L28: {
        if (l12 + Integer.MIN_VALUE > 2147483631) { break L28; }
        l13 = ((l14 << 6) | ((l13 << 12) & 61440)) | l15;
        l5 = 3L;
        break L26;
       }
       l13 = ((l15 << 6) | ((l14 << 12) | ((l13 << 18) & 1835008))) | ((b[((int) l9) - 58909] & 0xff) & 63);
       l5 = 4L;
      }
      L29: {
       if (f249(m, l13, l9 = l9 + l5, l10 = l10 - l5) == 0) { break L29; }
       L30: {
        L31: {
         if (!((l7 = l3 - l10) == 0L)) { break L31; }
         l6 = 0L;
         break L30;
        }
        L32: while (true) {
         l13 = (l12 = (int) b[((int) l2) - 58912]) & 255;
         l5 = 1L;
         L33: {
          if (l12 > -1) { break L33; }
          l14 = (b[((int) l2) - 58911] & 0xff) & 63;
          L34: {
           if (l12 + Integer.MIN_VALUE > 2147483615) { break L34; }
           l13 = ((l13 << 6) & 1984) | l14;
           l5 = 2L;
           break L33;
          }
          l15 = (b[((int) l2) - 58910] & 0xff) & 63;
          L35: {
           if (l12 + Integer.MIN_VALUE > 2147483631) { break L35; }
           l13 = ((l14 << 6) | ((l13 << 12) & 61440)) | l15;
           l5 = 3L;
           break L33;
          }
          l13 = ((l15 << 6) | ((l14 << 12) | ((l13 << 18) & 1835008))) | ((b[((int) l2) - 58909] & 0xff) & 63);
          l5 = 4L;
         }
         L36: {
          if (l13 == 38646) { break L36; }
          if (l13 == 12295) { break L36; }
          l6 = l7;
          break L30;
         }
         l2 = l2 + l5;
         l6 = 0L;
         if ((l7 = l7 - l5) != 0L) { continue L32; }
         break L32;
        }
       }
       Words.put64(b, ((int) l4) - 58680, 0L);
       Words.put64(b, ((int) l4) - 58688, 0L);
       Words.put64(b, ((int) l4) - 58696, 0L);
       Words.put64(b, ((int) l4) - 58704, 0L);
       f250(m, l4 + 208L, l2, l6);
       l2 = Words.get64(b, ((int) l4) - 58696);
       l5 = Words.get64(b, ((int) l4) - 58704);
       Words.put64(b, ((int) l4) - 58600, 0L);
       Words.put64(b, ((int) l4) - 58608, 0L);
       Words.put64(b, ((int) l4) - 58616, 0L);
       Words.put64(b, ((int) l4) - 58624, 0L);
       Words.put64(b, ((int) l4) - 58632, 0L);
       Words.put64(b, ((int) l4) - 58640, 0L);
       Words.put64(b, ((int) l4) - 58648, 0L);
       Words.put64(b, ((int) l4) - 58656, 0L);
       Core3.f80(m, l4 + 256L, l5, l2, l1);
       Words.put64(b, ((int) l4) - 58768, Words.get64(b, ((int) l8) - 58912));
       Words.put64(b, ((int) l4) - 58760, Words.get64(b, ((int) l8) - 58904));
       Words.put64(b, ((int) l4) - 58752, Words.get64(b, ((int) l8) - 58896));
       Words.put64(b, ((int) l4) - 58744, Words.get64(b, ((int) l8) - 58888));
       Words.put64(b, ((int) l4) - 58736, Words.get64(b, ((int) l8) - 58880));
       Words.put64(b, ((int) l4) - 58728, Words.get64(b, ((int) l8) - 58872));
       if ((b[((int) l4) - 58656] & 0xff) != 0) { break L2; }
       m.fill((int) (l4 + 256L), 0, (int) 80L);
       Core2.f52(m, l4 + 40L, l4 + 256L, l4 + 144L);
       l3 = l10;
       l2 = l9;
      }
      if (!(l10 == 0L)) { continue L25; }
      break L1;
     }
    }
    Words.put64(b, ((int) l4) - 58712, 0L);
    Words.put64(b, ((int) l4) - 58720, 0L);
    Words.put64(b, ((int) l4) - 58728, 0L);
    Words.put64(b, ((int) l4) - 58736, 0L);
    Words.put64(b, ((int) l4) - 58744, 0L);
    Words.put64(b, ((int) l4) - 58752, 0L);
    Words.put64(b, ((int) l4) - 58760, 0L);
    Words.put64(b, ((int) l4) - 58768, 0L);
    f251(m, l4 + 144L, l2, l3);
    L37: {
     L38: {
      L39: {
       if ((b[((int) l4) - 58768] & 0xff) != 1) { break L39; }
       l13 = Words.get32(b, ((int) l4) - 58744);
       l2 = Words.get64(b, ((int) l4) - 58752);
       l5 = Words.get64(b, ((int) l4) - 58760);
       Words.put64(b, ((int) l4) - 58600, 0L);
       Words.put64(b, ((int) l4) - 58608, 0L);
       Words.put64(b, ((int) l4) - 58616, 0L);
       Words.put64(b, ((int) l4) - 58624, 0L);
       Words.put64(b, ((int) l4) - 58632, 0L);
       Words.put64(b, ((int) l4) - 58640, 0L);
       Words.put64(b, ((int) l4) - 58648, 0L);
       Words.put64(b, ((int) l4) - 58656, 0L);
       Core3.f80(m, l4 + 256L, l5, l2, l1);
       Words.put64(b, ((int) l4) - 58704, Words.get64(b, ((int) l4) - 58640));
       Words.put64(b, ((int) l4) - 58696, Words.get64(b, ((int) l4) - 58632));
       Words.put64(b, ((int) l4) - 58688, Words.get64(b, ((int) l4) - 58624));
       Words.put64(b, ((int) l4) - 58680, Words.get64(b, ((int) l4) - 58616));
       Words.put64(b, ((int) l4) - 58672, Words.get64(b, ((int) l4) - 58608));
       Words.put64(b, ((int) l4) - 58664, Words.get64(b, ((int) l4) - 58600));
       if ((b[((int) l4) - 58656] & 0xff) == 0) { break L38; }
       l16 = 0;
       break L1;
      }
      Words.put64(b, ((int) l4) - 58600, 0L);
      Words.put64(b, ((int) l4) - 58608, 0L);
      Words.put64(b, ((int) l4) - 58616, 0L);
      Words.put64(b, ((int) l4) - 58624, 0L);
      Words.put64(b, ((int) l4) - 58632, 0L);
      Words.put64(b, ((int) l4) - 58640, 0L);
      Words.put64(b, ((int) l4) - 58648, 0L);
      Words.put64(b, ((int) l4) - 58656, 0L);
      Core3.f80(m, l4 + 256L, l2, l3, l1);
      Words.put64(b, ((int) l4) - 58704, Words.get64(b, ((int) l4) - 58640));
      Words.put64(b, ((int) l4) - 58696, Words.get64(b, ((int) l4) - 58632));
      Words.put64(b, ((int) l4) - 58688, Words.get64(b, ((int) l4) - 58624));
      Words.put64(b, ((int) l4) - 58680, Words.get64(b, ((int) l4) - 58616));
      Words.put64(b, ((int) l4) - 58672, Words.get64(b, ((int) l4) - 58608));
      Words.put64(b, ((int) l4) - 58664, Words.get64(b, ((int) l4) - 58600));
      l16 = 0;
      if ((b[((int) l4) - 58656] & 0xff) != 0) { break L1; }
      m.fill((int) (l4 + 256L), 0, (int) 80L);
      Core2.f52(m, l4 + 80L, l4 + 256L, l4 + 208L);
      break L37;
     }
     m.fill((int) (l4 + 256L), 0, (int) 80L);
     Core2.f52(m, l4 + 64L, l4 + 256L, l4 + 208L);
     Core2.f63(m, l4 + 56L, l13);
    }
    l16 = 1;
    break L1;
   }
   throw State.trap();
  }
  l16 = 0;
 }
 b[((int) l0) - 58911] = (byte) l16;
 b[((int) l0) - 58912] = (byte) 0;
 m.g0 = l4 + 336L;
}

static void f247(State m, long l0, long l1, long l2) {
 final byte[] b = m.bytes;
 long l3 = 0;
 long l4 = 0;
 long l5 = 0;
 long l6 = 0;
 long l7 = 0;
 long l8 = 0;
 int l9 = 0;
 int l10 = 0;
 int l11 = 0;
 int l12 = 0;
 m.g0 = l3 = m.g0 - 16L;
 L1: {
  L2: {
   L3: {
    if ((l4 = l3) < 16L) { break L3; }
    l5 = l1;
    l6 = l2;
    L4: while (true) {
     l3 = l5;
     if ((l7 = l6) == 0L) { break L2; }
     l5 = 1L;
     l11 = l10 = (l9 = (int) b[((int) l3) - 58912]) & 255;
     L5: {
      if (l9 > -1) { break L5; }
      l11 = (b[((int) l3) - 58911] & 0xff) & 63;
      L6: {
       if (l9 + Integer.MIN_VALUE > 2147483615) { break L6; }
       l11 = ((l10 << 6) & 1984) | l11;
       l5 = 2L;
       break L5;
      }
      l12 = (b[((int) l3) - 58910] & 0xff) & 63;
      L7: {
       if (l9 + Integer.MIN_VALUE > 2147483631) { break L7; }
       l11 = ((l11 << 6) | ((l10 << 12) & 61440)) | l12;
       l5 = 3L;
       break L5;
      }
      l11 = ((l12 << 6) | ((l11 << 12) | ((l10 << 18) & 1835008))) | ((b[((int) l3) - 58909] & 0xff) & 63);
      l5 = 4L;
     }
     L8: {
      if (l11 == 40670) { break L8; }
      l6 = l7 - l5;
      l5 = l3 + l5;
      if (l11 != 28857) { continue L4; }
     }
     break L4;
    }
    l5 = 1L;
    L9: {
     if (l9 > -1) { break L9; }
     l11 = (b[((int) l3) - 58911] & 0xff) & 63;
     L10: {
      if (l9 + Integer.MIN_VALUE > 2147483615) { break L10; }
      l10 = ((l10 << 6) & 1984) | l11;
      l5 = 2L;
      break L9;
     }
     l12 = (b[((int) l3) - 58910] & 0xff) & 63;
     L11: {
      if (l9 + Integer.MIN_VALUE > 2147483631) { break L11; }
      l10 = ((l11 << 6) | ((l10 << 12) & 61440)) | l12;
      l5 = 3L;
      break L9;
     }
     l10 = ((l12 << 6) | ((l11 << 12) | ((l10 << 18) & 1835008))) | ((b[((int) l3) - 58909] & 0xff) & 63);
     l5 = 4L;
    }
    L12: {
     L13: {
      L14: {
       if (l10 == 28857) { break L14; }
       if (l10 != 40670) { break L13; }
      }
      if (l2 == 0L) { break L13; }
      L15: {
       if ((l11 = (int) b[((int) ((l6 = l1 + l2) + -1L)) - 58912]) >= 0) { break L15; }
       l8 = -2L;
       L16: {
        if ((b[((int) (l6 + -2L)) - 58912] & 0xff) + Integer.MIN_VALUE > -2147483457) { break L16; }
        l8 = ((b[((int) (l6 + -3L)) - 58912] & 0xff) + Integer.MIN_VALUE > -2147483457) ? -3L : -4L;
       }
       l11 = (l9 = (int) b[((int) (l6 = (l1 + l8) + l2)) - 58912]) & 255;
       if (l9 > -1) { break L15; }
       l10 = (b[((int) l6) - 58911] & 0xff) & 63;
       L17: {
        if (l9 + Integer.MIN_VALUE > 2147483615) { break L17; }
        l11 = ((l11 << 6) & 1984) | l10;
        break L15;
       }
       l12 = (b[((int) l6) - 58910] & 0xff) & 63;
       L18: {
        if (l9 + Integer.MIN_VALUE > 2147483631) { break L18; }
        l11 = ((l10 << 6) | ((l11 << 12) & 61440)) | l12;
        break L15;
       }
       l11 = ((l12 << 6) | ((l10 << 12) | ((l11 << 18) & 1835008))) | ((b[((int) l6) - 58909] & 0xff) & 63);
      }
      Core2.f63(m, l4 + 8L, l11);
      if ((b[((int) l4) - 58904] & 0xff) == 1) { break L12; }
      Core2.f61(m, l4, l11);
      if ((b[((int) l4) - 58912] & 0xff) != 1) { break L13; }
      if (((b[((int) l4) - 58911] & 0xff) & 255) + Integer.MIN_VALUE > -2147483645) { break L12; }
     }
     Words.put64(b, ((int) l0) - 58880, 0L);
     Words.put64(b, ((int) l0) - 58888, 0L);
     Words.put64(b, ((int) l0) - 58896, 0L);
     Words.put64(b, ((int) l0) - 58904, 0L);
     Words.put64(b, ((int) l0) - 58912, 0L);
     break L1;
    }
    Words.put64(b, ((int) l0) - 58912, 1L);
    Words.put64(b, ((int) (l0 + 32L)) - 58912, l7 - l5);
    Words.put64(b, ((int) (l0 + 24L)) - 58912, l3 + l5);
    Words.put64(b, ((int) (l0 + 16L)) - 58912, l2 - l7);
    Words.put64(b, ((int) (l0 + 8L)) - 58912, l1);
    break L1;
   }
   throw State.trap();
  }
  Words.put64(b, ((int) l0) - 58880, 0L);
  Words.put64(b, ((int) l0) - 58888, 0L);
  Words.put64(b, ((int) l0) - 58896, 0L);
  Words.put64(b, ((int) l0) - 58904, 0L);
  Words.put64(b, ((int) l0) - 58912, 0L);
 }
 m.g0 = l4 + 16L;
}

static int f248(State m, long l0, long l1) {
 final byte[] b = m.bytes;
 long l2 = 0;
 long l3 = 0;
 long l4 = 0;
 int l5 = 0;
 int l6 = 0;
 int l7 = 0;
 int l8 = 0;
 m.g0 = l2 = m.g0 - 16L;
 L1: {
  if ((l2 = l2) < 16L) { break L1; }
  L2: {
   L3: {
    if (!(l1 == 0L)) { break L3; }
    l5 = 0;
    break L2;
   }
   L4: {
    if ((l5 = (int) b[((int) ((l3 = l0 + l1) + -1L)) - 58912]) >= 0) { break L4; }
    l4 = -2L;
    L5: {
     if ((b[((int) (l3 + -2L)) - 58912] & 0xff) + Integer.MIN_VALUE > -2147483457) { break L5; }
     l4 = ((b[((int) (l3 + -3L)) - 58912] & 0xff) + Integer.MIN_VALUE > -2147483457) ? -3L : -4L;
    }
    l5 = (l6 = (int) b[((int) (l1 = (l0 + l4) + l1)) - 58912]) & 255;
    if (l6 > -1) { break L4; }
    l7 = (b[((int) l1) - 58911] & 0xff) & 63;
    L6: {
     if (l6 + Integer.MIN_VALUE > 2147483615) { break L6; }
     l5 = ((l5 << 6) & 1984) | l7;
     break L4;
    }
    l8 = (b[((int) l1) - 58910] & 0xff) & 63;
    L7: {
     if (l6 + Integer.MIN_VALUE > 2147483631) { break L7; }
     l5 = ((l7 << 6) | ((l5 << 12) & 61440)) | l8;
     break L4;
    }
    l5 = ((l8 << 6) | ((l7 << 12) | ((l5 << 18) & 1835008))) | ((b[((int) l1) - 58909] & 0xff) & 63);
   }
   Core2.f61(m, l2 + 8L, l5);
   l5 = (((b[((int) l2) - 58904] & 0xff) == 1) & (((b[((int) l2) - 58903] & 0xff) & 255) + Integer.MIN_VALUE > -2147483645)) ? 1 : 0;
  }
  m.g0 = l2 + 16L;
  final int t8 = l5;
  return t8;
 }
 throw State.trap();
}

static int f249(State m, int l0, long l1, long l2) {
 final byte[] b = m.bytes;
 long l3 = 0;
 long l4 = 0;
 int l5 = 0;
 int l6 = 0;
 int l7 = 0;
 int l8 = 0;
 int l9 = 0;
 m.g0 = l3 = m.g0 - 16L;
 L1: {
  if ((l3 = l3) < 16L) { break L1; }
  Core2.f61(m, l3 + 8L, l0);
  l5 = 0;
  L2: {
   if ((b[((int) l3) - 58904] & 0xff) != 1) { break L2; }
   if (((l6 = b[((int) l3) - 58903] & 0xff) & 255) + Integer.MIN_VALUE < -2147483644) { break L2; }
   L3: while (true) {
    if ((l5 = (l2 == 0L) ? 1 : 0) != 0) { break L2; }
    l0 = (l7 = (int) b[((int) l1) - 58912]) & 255;
    l4 = 1L;
    L4: {
     if (l7 > -1) { break L4; }
     l8 = (b[((int) l1) - 58911] & 0xff) & 63;
     L5: {
      if (l7 + Integer.MIN_VALUE > 2147483615) { break L5; }
      l0 = ((l0 << 6) & 1984) | l8;
      l4 = 2L;
      break L4;
     }
     l9 = (b[((int) l1) - 58910] & 0xff) & 63;
     L6: {
      if (l7 + Integer.MIN_VALUE > 2147483631) { break L6; }
      l0 = ((l8 << 6) | ((l0 << 12) & 61440)) | l9;
      l4 = 3L;
      break L4;
     }
     l0 = ((l9 << 6) | ((l8 << 12) | ((l0 << 18) & 1835008))) | ((b[((int) l1) - 58909] & 0xff) & 63);
     l4 = 4L;
    }
    Core2.f61(m, l3, l0);
    l2 = l2 - l4;
    l1 = l1 + l4;
    if ((b[((int) l3) - 58912] & 0xff) != 1) { continue L3; }
    if (((b[((int) l3) - 58911] & 0xff) & 255) + Integer.MIN_VALUE < (l6 & 255) + Integer.MIN_VALUE) { continue L3; }
    break L3;
   }
  }
  m.g0 = l3 + 16L;
  final int t7 = l5;
  return t7;
 }
 throw State.trap();
}

static void f250(State m, long l0, long l1, long l2) {
 final byte[] b = m.bytes;
 long l3 = 0;
 long l4 = 0;
 long l5 = 0;
 long l6 = 0;
 long l7 = 0;
 long l8 = 0;
 long l9 = 0;
 long l10 = 0;
 long l11 = 0;
 int l12 = 0;
 int l13 = 0;
 int l14 = 0;
 int l15 = 0;
 int l16 = 0;
 int l17 = 0;
 L1: {
  if ((l3 = m.g0) < 16L) { break L1; }
  L2: {
   L3: {
    L4: {
     if (l2 == 0L) { break L4; }
     l4 = l2;
     l5 = l1;
     L5: while (true) {
      l6 = l4;
      l13 = (l12 = (int) b[((int) (l7 = l5)) - 58912]) & 255;
      L6: {
       L7: {
        if (l12 > -1) { break L7; }
        l8 = 2L;
        final long t8 = l6;
        final long t9 = (l12 + Integer.MIN_VALUE < 2147483632) ? 3L : 4L;
        final int t10 = l14 = (l12 + Integer.MIN_VALUE < 2147483616) ? 1 : 0;
        l4 = t8 - (l9 = t10 != 0 ? 2L : t9);
        l5 = l7 + l9;
        l15 = (b[((int) l7) - 58911] & 0xff) & 63;
        L11: {
         if (l14 == 0) { break L11; }
         l13 = ((l13 << 6) & 1984) | l15;
         break L6;
        }
        l14 = (b[((int) l7) - 58910] & 0xff) & 63;
        L12: {
         if (l12 + Integer.MIN_VALUE > 2147483631) { break L12; }
         l13 = ((l15 << 6) | ((l13 << 12) & 61440)) | l14;
         l8 = 3L;
         break L6;
        }
        l13 = ((l14 << 6) | ((l15 << 12) | ((l13 << 18) & 1835008))) | ((b[((int) l7) - 58909] & 0xff) & 63);
        l8 = 4L;
        break L6;
       }
       l4 = l6 + -1L;
       l8 = 1L;
       l5 = l7 + 1L;
      }
      l10 = l7 + l8;
      L13: {
       L14: {
        if ((l16 = ((l11 = l6 - l8) == 0L) ? 1 : 0) != 0) { break L14; }
        l8 = l10;
        L15: while (true) {
         l12 = (l14 = (int) b[((int) l8) - 58912]) & 255;
         l9 = 1L;
         L16: {
          if (l14 > -1) { break L16; }
          l15 = (b[((int) l8) - 58911] & 0xff) & 63;
          L17: {
           if (l14 + Integer.MIN_VALUE > 2147483615) { break L17; }
           l12 = ((l12 << 6) & 1984) | l15;
           l9 = 2L;
           break L16;
          }
          l17 = (b[((int) l8) - 58910] & 0xff) & 63;
          L18: {
           if (l14 + Integer.MIN_VALUE > 2147483631) { break L18; }
           l12 = ((l15 << 6) | ((l12 << 12) & 61440)) | l17;
           l9 = 3L;
           break L16;
          }
          l12 = ((l17 << 6) | ((l15 << 12) | ((l12 << 18) & 1835008))) | ((b[((int) l8) - 58909] & 0xff) & 63);
          l9 = 4L;
         }
         L19: {
          L20: {
           if (l12 > 27806) { break L20; }
           L21: {
            if (l12 > 22418) { break L21; }
            L22: {
             if (l12 > 20739) { break L22; }
             L23: {
              switch (l12 + -20140) {
              case 0: case 19: break L19;
              case 1: case 2: case 3: case 4: case 5: case 6: case 7: case 8: case 9: case 10: case 11: case 12: case 13: case 14: case 15: case 16: case 17: case 18: break L13;
              default: break L23;
              }
             }
             if (l12 == 19975) { break L19; }
             break L13;
            }
            if (l12 == 20740) { break L19; }
            if (l12 == 20806) { break L19; }
            break L13;
           }
           L24: {
            if (l12 > 26996) { break L24; }
            if (l12 == 22419) { break L19; }
            if (l12 == 26497) { break L19; }
            break L13;
           }
           if (l12 == 26997) { break L19; }
           if (l12 == 27491) { break L19; }
           break L13;
          }
          L25: {
           if (l12 > 31212) { break L25; }
           L26: {
            if (l12 > 28316) { break L26; }
            if (l12 == 27807) { break L19; }
            if (l12 == 28071) { break L19; }
            break L13;
           }
           if (l12 == 28317) { break L19; }
           if (l12 == 28567) { break L19; }
           break L13;
          }
          L27: {
           if (l12 > 33835) { break L27; }
           if (l12 == 31213) { break L19; }
           if (l12 == 31344) { break L19; }
           break L13;
          }
          if (l12 == 33836) { break L19; }
          if (l12 == 36733) { break L19; }
          if (l12 != 36617) { break L13; }
         }
         l8 = l8 + l9;
         if ((l11 = l11 - l9) != 0L) { continue L15; }
         break L15;
        }
       }
       if (f249(m, l13, l1, l8 = l2 - l6) != 0) { break L3; }
       L28: {
        if (l13 == 20491) { break L28; }
        if (l13 != 20010) { break L13; }
       }
       if (l16 != 0) { break L13; }
       l12 = (l14 = (int) b[((int) l10) - 58912]) & 255;
       L29: {
        if (l14 > -1) { break L29; }
        l15 = (b[((int) l10) - 58911] & 0xff) & 63;
        L30: {
         if (l14 + Integer.MIN_VALUE > 2147483615) { break L30; }
         l12 = ((l12 << 6) & 1984) | l15;
         break L29;
        }
        l17 = (b[((int) l10) - 58910] & 0xff) & 63;
        L31: {
         if (l14 + Integer.MIN_VALUE > 2147483631) { break L31; }
         l12 = ((l15 << 6) | ((l12 << 12) & 61440)) | l17;
         break L29;
        }
        l12 = ((l17 << 6) | ((l15 << 12) | ((l12 << 18) & 1835008))) | ((b[((int) l10) - 58909] & 0xff) & 63);
       }
       if (f249(m, l12, l1, l8) != 0) { break L3; }
      }
      if (!(l4 == 0L)) { continue L5; }
      break L5;
     }
    }
    Words.put64(b, ((int) l0) - 58888, 0L);
    Words.put64(b, ((int) l0) - 58896, 83372L);
    Words.put64(b, ((int) l0) - 58904, l2);
    break L2;
   }
   Words.put64(b, ((int) l0) - 58888, l6);
   Words.put64(b, ((int) l0) - 58896, l7);
   Words.put64(b, ((int) l0) - 58904, l8);
  }
  Words.put64(b, ((int) l0) - 58912, l1);
  m.g0 = l3;
  return;
 }
 throw State.trap();
}

static void f251(State m, long l0, long l1, long l2) {
 final byte[] b = m.bytes;
 long l3 = 0;
 long l4 = 0;
 long l5 = 0;
 long l6 = 0;
 long l7 = 0;
 long l8 = 0;
 long l9 = 0;
 long l10 = 0;
 int l11 = 0;
 int l12 = 0;
 int l13 = 0;
 int l14 = 0;
 int l15 = 0;
 int l16 = 0;
 m.g0 = l3 = m.g0 - 32L;
 L1: {
  L2: {
   L3: {
    if ((l3 = l3) < 16L) { break L3; }
    L4: {
     L5: {
      L6: {
       if (l2 == 0L) { break L6; }
       L7: {
        if ((l11 = (int) b[((int) (l1 + (l4 = l2 + -1L))) - 58912]) >= 0) { break L7; }
        l4 = -2L;
        L8: {
         if ((b[((int) ((l5 = l1 + l2) + -2L)) - 58912] & 0xff) + Integer.MIN_VALUE > -2147483457) { break L8; }
         l4 = ((b[((int) (l5 + -3L)) - 58912] & 0xff) + Integer.MIN_VALUE > -2147483457) ? -3L : -4L;
        }
        l11 = (l12 = (int) b[((int) (l5 = l1 + (l4 = l4 + l2))) - 58912]) & 255;
        if (l12 > -1) { break L7; }
        l13 = (b[((int) l5) - 58911] & 0xff) & 63;
        L9: {
         if (l12 + Integer.MIN_VALUE > 2147483615) { break L9; }
         l11 = ((l11 << 6) & 1984) | l13;
         break L7;
        }
        l14 = (b[((int) l5) - 58910] & 0xff) & 63;
        L10: {
         if (l12 + Integer.MIN_VALUE > 2147483631) { break L10; }
         l11 = ((l13 << 6) | ((l11 << 12) & 61440)) | l14;
         break L7;
        }
        l11 = ((l14 << 6) | ((l13 << 12) | ((l11 << 18) & 1835008))) | ((b[((int) l5) - 58909] & 0xff) & 63);
       }
       if (l4 == 0L) { break L2; }
       l6 = l1 + l4;
       if ((l12 = (int) b[((int) (l1 + (l7 = l4 + -1L))) - 58912]) >= 0) { break L4; }
       l5 = -2L;
       L11: {
        if ((b[((int) (l6 + -2L)) - 58912] & 0xff) + Integer.MIN_VALUE > -2147483457) { break L11; }
        l5 = ((b[((int) (l6 + -3L)) - 58912] & 0xff) + Integer.MIN_VALUE > -2147483457) ? -3L : -4L;
       }
       l12 = (l13 = (int) b[((int) (l5 = l1 + (l7 = l5 + l4))) - 58912]) & 255;
       if (l13 > -1) { break L4; }
       l14 = (b[((int) l5) - 58911] & 0xff) & 63;
       L12: {
        if (l13 + Integer.MIN_VALUE > 2147483615) { break L12; }
        l12 = ((l12 << 6) & 1984) | l14;
        break L4;
       }
       l15 = (b[((int) l5) - 58910] & 0xff) & 63;
       if (l13 + Integer.MIN_VALUE > 2147483631) { break L5; }
       l12 = ((l14 << 6) | ((l12 << 12) & 61440)) | l15;
       break L4;
      }
      Words.put64(b, ((int) l0) - 58856, 0L);
      Words.put64(b, ((int) l0) - 58864, 0L);
      Words.put64(b, ((int) l0) - 58872, 0L);
      Words.put64(b, ((int) l0) - 58880, 0L);
      Words.put64(b, ((int) l0) - 58888, 0L);
      Words.put64(b, ((int) l0) - 58896, 0L);
      Words.put64(b, ((int) l0) - 58904, 0L);
      Words.put64(b, ((int) l0) - 58912, 0L);
      break L1;
     }
     l12 = ((l15 << 6) | ((l14 << 12) | ((l12 << 18) & 1835008))) | ((b[((int) l5) - 58909] & 0xff) & 63);
    }
    Core2.f63(m, l3 + 24L, l11);
    L13: {
     L14: {
      if ((b[((int) l3) - 58888] & 0xff) != 1) { break L14; }
      if (((b[((int) l3) - 58887] & 0xff) & 255) == 0) { break L14; }
      Core2.f61(m, l3 + 16L, l12);
      if ((b[((int) l3) - 58896] & 0xff) != 1) { break L14; }
      if (((l15 = b[((int) l3) - 58895] & 0xff) & 255) + Integer.MIN_VALUE < -2147483643) { break L14; }
      l8 = l2 - l4;
      l9 = l4 - l7;
      l10 = l1 + l7;
      l2 = l1;
      l5 = l7;
      L15: {
       L16: while (true) {
        if (l5 == 0L) { break L15; }
        l12 = (l13 = (int) b[((int) l2) - 58912]) & 255;
        l4 = 1L;
        L17: {
         if (l13 > -1) { break L17; }
         l14 = (b[((int) l2) - 58911] & 0xff) & 63;
         L18: {
          if (l13 + Integer.MIN_VALUE > 2147483615) { break L18; }
          l12 = ((l12 << 6) & 1984) | l14;
          l4 = 2L;
          break L17;
         }
         l16 = (b[((int) l2) - 58910] & 0xff) & 63;
         L19: {
          if (l13 + Integer.MIN_VALUE > 2147483631) { break L19; }
          l12 = ((l14 << 6) | ((l12 << 12) & 61440)) | l16;
          l4 = 3L;
          break L17;
         }
         l12 = ((l16 << 6) | ((l14 << 12) | ((l12 << 18) & 1835008))) | ((b[((int) l2) - 58909] & 0xff) & 63);
         l4 = 4L;
        }
        Core2.f61(m, l3 + 8L, l12);
        l5 = l5 - l4;
        l2 = l2 + l4;
        if ((b[((int) l3) - 58904] & 0xff) != 1) { continue L16; }
        if (((b[((int) l3) - 58903] & 0xff) & 255) + Integer.MIN_VALUE < (l15 & 255) + Integer.MIN_VALUE) { continue L16; }
        break L14;
       }
      }
      if (l7 == 0L) { break L13; }
      L20: {
       if ((l12 = (int) b[((int) (l10 + -1L)) - 58912]) >= 0) { break L20; }
       l2 = -2L;
       L21: {
        if ((b[((int) (l10 + -2L)) - 58912] & 0xff) + Integer.MIN_VALUE > -2147483457) { break L21; }
        l2 = ((b[((int) (l10 + -3L)) - 58912] & 0xff) + Integer.MIN_VALUE > -2147483457) ? -3L : -4L;
       }
       l12 = (l13 = (int) b[((int) (l2 = (l1 + l2) + l7)) - 58912]) & 255;
       if (l13 > -1) { break L20; }
       l14 = (b[((int) l2) - 58911] & 0xff) & 63;
       L22: {
        if (l13 + Integer.MIN_VALUE > 2147483615) { break L22; }
        l12 = ((l12 << 6) & 1984) | l14;
        break L20;
       }
       l15 = (b[((int) l2) - 58910] & 0xff) & 63;
       L23: {
        if (l13 + Integer.MIN_VALUE > 2147483631) { break L23; }
        l12 = ((l14 << 6) | ((l12 << 12) & 61440)) | l15;
        break L20;
       }
       l12 = ((l15 << 6) | ((l14 << 12) | ((l12 << 18) & 1835008))) | ((b[((int) l2) - 58909] & 0xff) & 63);
      }
      Core2.f61(m, l3, l12);
      L24: {
       if ((b[((int) l3) - 58912] & 0xff) != 1) { break L24; }
       if (((b[((int) l3) - 58911] & 0xff) & 255) + Integer.MIN_VALUE > -2147483645) { break L14; }
      }
      if (l12 == 20010) { break L14; }
      if (l12 != 20491) { break L13; }
     }
     Words.put64(b, ((int) l0) - 58856, 0L);
     Words.put64(b, ((int) l0) - 58864, 0L);
     Words.put64(b, ((int) l0) - 58872, 0L);
     Words.put64(b, ((int) l0) - 58880, 0L);
     Words.put64(b, ((int) l0) - 58888, 0L);
     Words.put64(b, ((int) l0) - 58896, 0L);
     Words.put64(b, ((int) l0) - 58904, 0L);
     Words.put64(b, ((int) l0) - 58912, 0L);
     break L1;
    }
    Words.put64(b, ((int) l0) - 58912, 1L);
    Words.put64(b, ((int) (l0 + 56L)) - 58912, l9);
    Words.put64(b, ((int) (l0 + 48L)) - 58912, l10);
    Words.put64(b, ((int) (l0 + 40L)) - 58912, l8);
    Words.put64(b, ((int) (l0 + 32L)) - 58912, l6);
    Words.put32(b, ((int) (l0 + 28L)) - 58912, 0);
    Words.put32(b, ((int) (l0 + 24L)) - 58912, l11);
    Words.put64(b, ((int) (l0 + 16L)) - 58912, l7);
    Words.put64(b, ((int) (l0 + 8L)) - 58912, l1);
    break L1;
   }
   throw State.trap();
  }
  Words.put64(b, ((int) l0) - 58856, 0L);
  Words.put64(b, ((int) l0) - 58864, 0L);
  Words.put64(b, ((int) l0) - 58872, 0L);
  Words.put64(b, ((int) l0) - 58880, 0L);
  Words.put64(b, ((int) l0) - 58888, 0L);
  Words.put64(b, ((int) l0) - 58896, 0L);
  Words.put64(b, ((int) l0) - 58904, 0L);
  Words.put64(b, ((int) l0) - 58912, 0L);
 }
 m.g0 = l3 + 32L;
}
}
