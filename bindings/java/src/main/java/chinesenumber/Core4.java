// The proved module for WebAssembly as Java; made by bindings/java/core.py.
package chinesenumber;

final class Core4 {
static int f119_1(State m, long l0, long l1, long l2, long l3, long l4, int l5, int l6, long l7, long l8, long l9, long l10, long l11, long l12, long l13, long l14, int l24, int l25, int l26, int l27, int l28) {
 final byte[] b = m.bytes;
 int exit = 0;
 PART: {
  L70: {
   if (l28 != 0) { break L70; }
   l24 = (l25 = (int) b[((int) l3) - 58912]) & 255;
   l9 = 1L;
   L71: {
    if (l25 > -1) { break L71; }
    l26 = (b[((int) l3) - 58911] & 0xff) & 63;
    L72: {
     if (l25 + Integer.MIN_VALUE > 2147483615) { break L72; }
     l24 = ((l24 << 6) & 1984) | l26;
     l9 = 2L;
     break L71;
    }
    l27 = (b[((int) l3) - 58910] & 0xff) & 63;
    L73: {
     if (l25 + Integer.MIN_VALUE > 2147483631) { break L73; }
     l24 = ((l26 << 6) | ((l24 << 12) & 61440)) | l27;
     l9 = 3L;
     break L71;
    }
    l24 = ((l27 << 6) | ((l26 << 12) | ((l24 << 18) & 1835008))) | ((b[((int) l3) - 58909] & 0xff) & 63);
    l9 = 4L;
   }
   L74: {
    if (l24 == 65509) { break L74; }
    if (l24 != 165) { break L70; }
   }
   L75: {
    if (l2 == l4) { break L75; }
    L76: {
     L77: {
      L78: {
       if ((l24 = (int) b[((int) ((l10 = l1 + l8) + -1L)) - 58912]) > -1) { break L78; }
       l11 = -2L;
       L79: {
        if ((l26 = b[((int) (l10 + -2L)) - 58912] & 0xff) + Integer.MIN_VALUE > -2147483457) { break L79; }
        l11 = ((b[((int) (l10 + -3L)) - 58912] & 0xff) + Integer.MIN_VALUE > -2147483457) ? -3L : -4L;
       }
       l24 = (l25 = (int) b[((int) (l11 = (l1 + l11) + l8)) - 58912]) & 255;
       L80: {
        if (l25 > -1) { break L80; }
        l27 = (b[((int) l11) - 58911] & 0xff) & 63;
        L81: {
         if (l25 + Integer.MIN_VALUE > 2147483615) { break L81; }
         l24 = ((l24 << 6) & 1984) | l27;
         break L80;
        }
        l28 = (b[((int) l11) - 58910] & 0xff) & 63;
        L82: {
         if (l25 + Integer.MIN_VALUE > 2147483631) { break L82; }
         l24 = ((l27 << 6) | ((l24 << 12) & 61440)) | l28;
         break L80;
        }
        l24 = ((l28 << 6) | ((l27 << 12) | ((l24 << 18) & 1835008))) | ((b[((int) l11) - 58909] & 0xff) & 63);
       }
       if (l24 == 95) { break L70; }
       if (((l24 & 2097119) + -65) + Integer.MIN_VALUE < -2147483622) { break L70; }
       l11 = -2L;
       L83: {
        if (l26 + Integer.MIN_VALUE > -2147483457) { break L83; }
        l11 = ((b[((int) (l10 + -3L)) - 58912] & 0xff) + Integer.MIN_VALUE > -2147483457) ? -3L : -4L;
       }
       l24 = (l25 = (int) b[((int) (l10 = (l1 + l11) + l8)) - 58912]) & 255;
       if (l25 > -1) { break L76; }
       l26 = (b[((int) l10) - 58911] & 0xff) & 63;
       if (l25 + Integer.MIN_VALUE > 2147483615) { break L77; }
       l24 = ((l24 << 6) & 1984) | l26;
       break L76;
      }
      if (l24 == 95) { break L70; }
      if ((((l24 & 95) + -65) & 255) + Integer.MIN_VALUE >= -2147483622) { break L76; }
      break L70;
     }
     l27 = (b[((int) l10) - 58910] & 0xff) & 63;
     L84: {
      if (l25 + Integer.MIN_VALUE > 2147483631) { break L84; }
      l24 = ((l26 << 6) | ((l24 << 12) & 61440)) | l27;
      break L76;
     }
     l24 = ((l27 << 6) | ((l26 << 12) | ((l24 << 18) & 1835008))) | ((b[((int) l10) - 58909] & 0xff) & 63);
    }
    if ((l24 + -48) + Integer.MIN_VALUE < -2147483638) { break L70; }
    if ((l24 + -65296) + Integer.MIN_VALUE < -2147483638) { break L70; }
   }
   f132(m, l7 + 24L, 0, l3 + l9, l4 - l9);
   l9 = Words.get64(b, ((int) l7) - 58880);
   l10 = Words.get64(b, ((int) l7) - 58888);
   Words.put64(b, ((int) l7) - 58704, 0L);
   Words.put64(b, ((int) l7) - 58712, 0L);
   Words.put64(b, ((int) l7) - 58720, 0L);
   f129(m, l7 + 192L, l1, l2, l10, l9, l5, l6);
   if ((b[((int) l7) - 58720] & 0xff) != 1) { break L70; }
   if (l9 == (l11 = Words.get64(b, ((int) l7) - 58704))) { break L70; }
   l24 = (l25 = (int) b[((int) l10) - 58912]) & 255;
   L85: {
    if (l25 > -1) { break L85; }
    l26 = (b[((int) l10) - 58911] & 0xff) & 63;
    L86: {
     if (l25 + Integer.MIN_VALUE > 2147483615) { break L86; }
     l24 = ((l24 << 6) & 1984) | l26;
     break L85;
    }
    l27 = (b[((int) l10) - 58910] & 0xff) & 63;
    L87: {
     if (l25 + Integer.MIN_VALUE > 2147483631) { break L87; }
     l24 = ((l26 << 6) | ((l24 << 12) & 61440)) | l27;
     break L85;
    }
    l24 = ((l27 << 6) | ((l26 << 12) | ((l24 << 18) & 1835008))) | ((b[((int) l10) - 58909] & 0xff) & 63);
   }
   l12 = Words.get64(b, ((int) l7) - 58712);
   L88: {
    if ((l24 + -48) + Integer.MIN_VALUE < -2147483638) { break L88; }
    if ((l24 + -65296) + Integer.MIN_VALUE > -2147483639) { break L70; }
   }
   Words.put64(b, ((int) l7) - 58680, l11);
   Words.put64(b, ((int) l7) - 58688, l12);
   Words.put64(b, ((int) l7) - 58696, l13 = l9 - l11);
   Words.put64(b, ((int) l7) - 58704, l10);
   Words.put64(b, ((int) l7) - 58712, l14 = l2 - l9);
   Words.put64(b, ((int) l7) - 58720, l1);
   if (f135(m, l7 + 192L) == 0) { break L70; }
   Words.put64(b, ((int) l0) - 58912, 1L);
   Words.put64(b, ((int) (l0 + 96L)) - 58912, 0L);
   Words.put64(b, ((int) (l0 + 88L)) - 58912, 83372L);
   Words.put64(b, ((int) (l0 + 80L)) - 58912, l11);
   Words.put64(b, ((int) (l0 + 72L)) - 58912, l12);
   Words.put64(b, ((int) (l0 + 64L)) - 58912, l13);
   Words.put64(b, ((int) (l0 + 56L)) - 58912, l10);
   Words.put64(b, ((int) (l0 + 48L)) - 58912, l14);
   Words.put64(b, ((int) (l0 + 40L)) - 58912, l1);
   Words.put64(b, ((int) (l0 + 32L)) - 58912, l4 - l9);
   Words.put64(b, ((int) (l0 + 24L)) - 58912, l3);
   Words.put64(b, ((int) (l0 + 16L)) - 58912, 0L);
   Words.put64(b, ((int) (l0 + 8L)) - 58912, 1L);
   Words.put64(b, ((int) (l0 + 104L)) - 58912, 0L);
   Words.put64(b, ((int) (l0 + 120L)) - 58912, l11);
   Words.put64(b, ((int) (l0 + 112L)) - 58912, l12);
   exit = 1; break PART;
  }
 }
 m.kept[0] = l9;
 m.kept[1] = l10;
 m.kept[2] = l11;
 m.kept[3] = l12;
 m.kept[4] = l13;
 m.kept[5] = l14;
 m.kept[6] = l24;
 m.kept[7] = l25;
 m.kept[8] = l26;
 m.kept[9] = l27;
 m.kept[10] = l28;
 return exit;
}

static int f119_2(State m, long l1, long l2, long l3, long l4, long l7, long l8, long l9, long l10, long l11, long l12, long l13, long l14, long l15, long l16, long l17, long l19, long l20, long l21, long l22, long l23, int l24, int l25, int l26, int l27, int l28, int l29, int l30) {
 final byte[] b = m.bytes;
 int exit = 0;
 PART: {
  L97: {
   L98: {
    L99: {
     if ((l24 = (l11 == 0L) ? 1 : 0) != 0) { break L99; }
     if ((l25 = (int) b[((int) l9) - 58912]) > -1) { break L99; }
     if (l25 + Integer.MIN_VALUE < 2147483616) { break L99; }
     l26 = l25 & 255;
     l27 = (b[((int) l9) - 58911] & 0xff) & 63;
     l28 = (b[((int) l9) - 58910] & 0xff) & 63;
     L100: {
      L101: {
       if (l25 + Integer.MIN_VALUE > 2147483631) { break L101; }
       l29 = ((l27 << 6) | ((l26 << 12) & 61440)) | l28;
       l4 = 3L;
       break L100;
      }
      l29 = ((l28 << 6) | ((l27 << 12) | ((l26 << 18) & 1835008))) | ((b[((int) l9) - 58909] & 0xff) & 63);
      l4 = 4L;
     }
     L102: {
      L103: {
       L104: {
        L105: {
         switch (l29 + -22278) {
         case 0: case 13: break L104;
         case 1: case 2: case 3: case 4: case 5: case 6: case 7: case 8: case 9: case 10: case 11: case 12: break L103;
         default: break L105;
         }
        }
        if (l29 != 20803) { break L103; }
       }
       f136(m, l7 + 80L, l9 + l4, l11 - l4);
       L106: {
        if ((b[((int) l7) - 58832] & 0xff) != 1) { break L106; }
        l4 = Words.get64(b, ((int) l7) - 58808);
        l10 = Words.get64(b, ((int) l7) - 58816);
        l26 = b[((int) l7) - 58822] & 0xff;
        l25 = b[((int) l7) - 58823] & 0xff;
        l27 = b[((int) l7) - 58824] & 0xff;
        break L102;
       }
       if ((l25 = b[((int) l9) - 58912] & 0xff) + Integer.MIN_VALUE < -2147483424) { break L99; }
       l28 = (b[((int) l9) - 58910] & 0xff) & 63;
       l27 = (b[((int) l9) - 58911] & 0xff) & 63;
       l26 = l25;
      }
      L107: {
       L108: {
        if ((l25 & 255) + Integer.MIN_VALUE > -2147483409) { break L108; }
        l25 = ((l27 << 6) | l28) | ((l26 << 12) & 61440);
        l4 = 3L;
        break L107;
       }
       l25 = (((l27 << 12) | (l28 << 6)) | ((l26 << 18) & 1835008)) | ((b[((int) l9) - 58909] & 0xff) & 63);
       l4 = 4L;
      }
      L109: {
       if (l25 == 22602) { break L109; }
       if (l25 != 22359) { break L99; }
      }
      Words.put64(b, ((int) l7) - 58720, 0L);
      Words.put64(b, ((int) l7) - 58712, 0L);
      Words.put64(b, ((int) l7) - 58704, 0L);
      Words.put64(b, ((int) l7) - 58696, 0L);
      Words.put64(b, ((int) l7) - 58800, 0L);
      Words.put64(b, ((int) l7) - 58792, 0L);
      Words.put64(b, ((int) l7) - 58784, 0L);
      Words.put64(b, ((int) l7) - 58776, 0L);
      f136(m, l7 + 192L, l10 = l9 + l4, l4 = l11 - l4);
      L110: {
       if ((b[((int) l7) - 58720] & 0xff) != 1) { break L110; }
       l4 = Words.get64(b, ((int) l7) - 58696);
       l10 = Words.get64(b, ((int) l7) - 58704);
       l26 = b[((int) l7) - 58710] & 0xff;
       l25 = b[((int) l7) - 58711] & 0xff;
       l27 = b[((int) l7) - 58712] & 0xff;
       break L102;
      }
      f137(m, l7 + 112L, l10, l4);
      if ((b[((int) l7) - 58800] & 0xff) != 1) { break L99; }
      l26 = 0;
      l27 = 3;
      l4 = Words.get64(b, ((int) l7) - 58776);
      l10 = Words.get64(b, ((int) l7) - 58784);
      l25 = b[((int) l7) - 58792] & 0xff;
     }
     Words.put64(b, ((int) l7) - 58664, 0L);
     Words.put64(b, ((int) l7) - 58672, 0L);
     Words.put64(b, ((int) l7) - 58680, 0L);
     Words.put64(b, ((int) l7) - 58688, 0L);
     Words.put64(b, ((int) l7) - 58696, 0L);
     Words.put64(b, ((int) l7) - 58704, 0L);
     Words.put64(b, ((int) l7) - 58712, 0L);
     Words.put64(b, ((int) l7) - 58720, 0L);
     Core3.f80(m, l7 + 192L, l3, l23, 1);
     if ((b[((int) l7) - 58720] & 0xff) != 0) { break L99; }
     if ((b[((int) l7) - 58672] & 0xff) != 0) { break L99; }
     if ((l14 = Words.get64(b, ((int) l7) - 58696)) < 0L) { break L99; }
     final int t111 = (Words.get64(b, ((int) l7) - 58704) + Long.MIN_VALUE < -9213372036854775808L) ? 1 : 0;
     final int t112 = (l14 == 0L) ? 1 : 0;
     if ((t112 != 0 ? t111 : 0) != 0) { break L98; }
    }
    f138(m, l7 + 56L, 85348L, 5L, 85368L, 2L, l9, l11);
    L113: {
     if ((b[((int) l7) - 58856] & 0xff) != 1) { break L113; }
     l25 = 0;
     l27 = 3;
     l4 = Words.get64(b, ((int) l7) - 58840);
     l10 = Words.get64(b, ((int) l7) - 58848);
     l26 = 0;
     break L98;
    }
    L114: {
     if ((l27 = (l23 == 0L) ? 1 : 0) != 0) { break L114; }
     l26 = (l25 = (int) b[((int) l3) - 58912]) & 255;
     l4 = 1L;
     L115: {
      if (l25 > -1) { break L115; }
      l28 = (b[((int) l3) - 58911] & 0xff) & 63;
      L116: {
       if (l25 + Integer.MIN_VALUE > 2147483615) { break L116; }
       l26 = ((l26 << 6) & 1984) | l28;
       l4 = 2L;
       break L115;
      }
      l29 = (b[((int) l3) - 58910] & 0xff) & 63;
      L117: {
       if (l25 + Integer.MIN_VALUE > 2147483631) { break L117; }
       l26 = ((l28 << 6) | ((l26 << 12) & 61440)) | l29;
       l4 = 3L;
       break L115;
      }
      l26 = ((l29 << 6) | ((l28 << 12) | ((l26 << 18) & 1835008))) | ((b[((int) l3) - 58909] & 0xff) & 63);
      l4 = 4L;
     }
     if (l23 != l4) { break L114; }
     f139(m, l7, l26);
     if (((b[((int) l7) - 58912] & 0xff) & 1) == 0) { break L114; }
     l25 = b[((int) l7) - 58911] & 0xff;
     Words.put64(b, ((int) l7) - 58816, 0L);
     Words.put64(b, ((int) l7) - 58824, 0L);
     Words.put64(b, ((int) l7) - 58832, 0L);
     L118: {
      if (l24 != 0) { break L118; }
      if ((l26 = (int) b[((int) l9) - 58912]) > -1) { break L118; }
      if (l26 + Integer.MIN_VALUE < 2147483616) { break L118; }
      l28 = l26 & 255;
      l29 = (b[((int) l9) - 58911] & 0xff) & 63;
      l30 = (b[((int) l9) - 58910] & 0xff) & 63;
      L119: {
       L120: {
        if (l26 + Integer.MIN_VALUE > 2147483631) { break L120; }
        l26 = ((l29 << 6) | ((l28 << 12) & 61440)) | l30;
        l4 = 3L;
        break L119;
       }
       l26 = ((l30 << 6) | ((l29 << 12) | ((l28 << 18) & 1835008))) | ((b[((int) l9) - 58909] & 0xff) & 63);
       l4 = 4L;
      }
      L121: {
       if (l26 == 35282) { break L121; }
       if (l26 != 27611) { break L118; }
      }
      Words.put64(b, ((int) l7) - 58720, 0L);
      Words.put64(b, ((int) l7) - 58712, 0L);
      Words.put64(b, ((int) l7) - 58704, 0L);
      Words.put64(b, ((int) l7) - 58696, 0L);
      Words.put64(b, ((int) l7) - 58800, 0L);
      Words.put64(b, ((int) l7) - 58792, 0L);
      Words.put64(b, ((int) l7) - 58784, 0L);
      Words.put64(b, ((int) l7) - 58776, 0L);
      f140(m, l7 + 192L, l10 = l9 + l4, l14 = l11 - l4);
      L122: {
       if ((b[((int) l7) - 58720] & 0xff) != 1) { break L122; }
       l4 = Words.get64(b, ((int) l7) - 58696);
       l10 = Words.get64(b, ((int) l7) - 58704);
       l26 = b[((int) l7) - 58712] & 0xff;
       l27 = 4;
       break L98;
      }
      f137(m, l7 + 112L, l10, l14);
      L123: {
       if ((b[((int) l7) - 58800] & 0xff) != 1) { break L123; }
       l4 = Words.get64(b, ((int) l7) - 58776);
       l10 = Words.get64(b, ((int) l7) - 58784);
       l26 = b[((int) l7) - 58792] & 0xff;
       l27 = 4;
       break L98;
      }
      if (l11 == l4) { break L118; }
      if ((l26 = (int) b[((int) l10) - 58912]) > -1) { break L118; }
      if (l26 + Integer.MIN_VALUE < 2147483616) { break L118; }
      l28 = l26 & 255;
      l29 = (b[((int) l10) - 58911] & 0xff) & 63;
      l30 = (b[((int) l10) - 58910] & 0xff) & 63;
      L124: {
       L125: {
        if (l26 + Integer.MIN_VALUE > 2147483631) { break L125; }
        l26 = ((l29 << 6) | ((l28 << 12) & 61440)) | l30;
        l4 = 3L;
        break L124;
       }
       l26 = ((l30 << 6) | ((l29 << 12) | ((l28 << 18) & 1835008))) | ((b[((int) l10) - 58909] & 0xff) & 63);
       l4 = 4L;
      }
      L126: {
       if (l26 == 38065) { break L126; }
       if (l26 != 37666) { break L118; }
      }
      l10 = l10 + l4;
      l4 = l14 - l4;
      l26 = 0;
      l27 = 4;
      break L98;
     }
     f138(m, l7 + 80L, 83844L, 1L, 85368L, 2L, l9, l11);
     if ((b[((int) l7) - 58832] & 0xff) != 1) { break L114; }
     l4 = Words.get64(b, ((int) l7) - 58816);
     l10 = Words.get64(b, ((int) l7) - 58824);
     l27 = 4;
     l26 = l25;
     l25 = 0;
     break L98;
    }
    Words.put64(b, ((int) l7) - 58720, 0L);
    Words.put64(b, ((int) l7) - 58712, 0L);
    Words.put64(b, ((int) l7) - 58704, 0L);
    Words.put64(b, ((int) l7) - 58696, 0L);
    Words.put64(b, ((int) l7) - 58800, 0L);
    Words.put64(b, ((int) l7) - 58792, 0L);
    Words.put64(b, ((int) l7) - 58784, 0L);
    Words.put64(b, ((int) l7) - 58776, 0L);
    if (l24 != 0) { break L97; }
    if ((l24 = (int) b[((int) l9) - 58912]) > -1) { break L97; }
    if (l24 + Integer.MIN_VALUE < 2147483616) { break L97; }
    l25 = l24 & 255;
    l26 = (b[((int) l9) - 58911] & 0xff) & 63;
    l28 = (b[((int) l9) - 58910] & 0xff) & 63;
    L127: {
     L128: {
      if (l24 + Integer.MIN_VALUE > 2147483631) { break L128; }
      l29 = ((l26 << 6) | ((l25 << 12) & 61440)) | l28;
      l4 = 3L;
      break L127;
     }
     l29 = ((l28 << 6) | ((l26 << 12) | ((l25 << 18) & 1835008))) | ((b[((int) l9) - 58909] & 0xff) & 63);
     l4 = 4L;
    }
    L129: {
     L130: {
      L131: {
       switch (l29 + -22278) {
       case 0: case 13: break L130;
       case 1: case 2: case 3: case 4: case 5: case 6: case 7: case 8: case 9: case 10: case 11: case 12: break L129;
       default: break L131;
       }
      }
      if (l29 != 20803) { break L129; }
     }
     f141(m, l7 + 192L, 1, l9 + l4, l11 - l4);
     L132: {
      if ((b[((int) l7) - 58720] & 0xff) != 1) { break L132; }
      l4 = Words.get64(b, ((int) l7) - 58696);
      l10 = Words.get64(b, ((int) l7) - 58704);
      l26 = b[((int) l7) - 58710] & 0xff;
      l25 = b[((int) l7) - 58711] & 0xff;
      l27 = b[((int) l7) - 58712] & 0xff;
      break L98;
     }
     if ((l24 = b[((int) l9) - 58912] & 0xff) + Integer.MIN_VALUE < -2147483424) { break L97; }
     l28 = (b[((int) l9) - 58910] & 0xff) & 63;
     l26 = (b[((int) l9) - 58911] & 0xff) & 63;
     l25 = l24;
    }
    L133: {
     L134: {
      if ((l24 & 255) + Integer.MIN_VALUE > -2147483409) { break L134; }
      l24 = ((l26 << 6) | l28) | ((l25 << 12) & 61440);
      l4 = 3L;
      break L133;
     }
     l24 = (((l26 << 12) | (l28 << 6)) | ((l25 << 18) & 1835008)) | ((b[((int) l9) - 58909] & 0xff) & 63);
     l4 = 4L;
    }
    L135: {
     if (l24 == 22602) { break L135; }
     if (l24 != 22359) { break L97; }
    }
    Words.put32(b, ((int) l7) - 58832, 0);
    L136: {
     L137: {
      L138: {
       L139: {
        L140: {
         if ((l10 = l23 + -1L) + Long.MIN_VALUE > -9223372036854775806L) { break L140; }
         L141: {
          switch ((int) l10) {
          case 1: break L140;
          case 2: break L141;
          default: break L137;
          }
         }
         if (Words.get32(b, State.far((int) (l10 = ((((l25 = (((b[((int) l3) - 58911] & 0xff) << 8) | (l24 = b[((int) l3) - 58912] & 0xff)) | ((b[((int) l3) - 58910] & 0xff) << 16)) & 0xffffffffL) * 953497L) >>> 22L) & 1016L), 66852)) != l25) { break L139; }
         if (((b[((int) (l10 + 66856L)) - 58912] & 0xff) & 255) == 2) { break L139; }
         break L97;
        }
        if (l23 + Long.MIN_VALUE > -9223372036854775804L) { break L136; }
        if (l27 != 0) { break L138; }
        l24 = b[((int) l3) - 58912] & 0xff;
       }
       if (((int) (byte) l24) > -1) { break L136; }
      }
      Core3.f113(m, l7 + 80L, l3, l23);
      if ((b[((int) l7) - 58832] & 0xff) != 1) { break L136; }
      if (((b[((int) l7) - 58829] & 0xff) & 1) == 0) { break L136; }
      break L97;
     }
     if ((((b[((int) l3) - 58912] & 0xff) + -58) & 255) + Integer.MIN_VALUE <= -2147483403) { break L97; }
    }
    f141(m, l7 + 112L, 2, l9 + l4, l11 - l4);
    if ((b[((int) l7) - 58800] & 0xff) != 1) { break L97; }
    l4 = Words.get64(b, ((int) l7) - 58776);
    l10 = Words.get64(b, ((int) l7) - 58784);
    l26 = b[((int) l7) - 58790] & 0xff;
    l25 = b[((int) l7) - 58791] & 0xff;
    l27 = b[((int) l7) - 58792] & 0xff;
   }
   Words.put64(b, ((int) l7) - 58728, l12);
   Words.put64(b, ((int) l7) - 58736, l13);
   Words.put64(b, ((int) l7) - 58744, l23);
   Words.put64(b, ((int) l7) - 58752, l3);
   Words.put64(b, ((int) l7) - 58760, l8);
   Words.put64(b, ((int) l7) - 58768, l1);
   if (f135(m, l7 + 144L) == 0) { break L97; }
   l15 = (((l26 & 0xffffffffL) & 255L) << 8L) | ((l25 & 0xffffffffL) & 255L);
   l16 = l12 - l4;
   l9 = (l27 & 0xffffffffL) & 255L;
   l17 = 1L;
   l19 = 83372L;
   l21 = l3;
   l3 = 0L;
   l11 = l1;
   l20 = l8;
   l22 = l23;
   l1 = l13;
   l2 = l12;
   l14 = l13;
   exit = 1; break PART;
  }
 }
 m.kept[0] = l1;
 m.kept[1] = l2;
 m.kept[2] = l3;
 m.kept[3] = l4;
 m.kept[4] = l9;
 m.kept[5] = l10;
 m.kept[6] = l11;
 m.kept[7] = l14;
 m.kept[8] = l15;
 m.kept[9] = l16;
 m.kept[10] = l17;
 m.kept[11] = l19;
 m.kept[12] = l20;
 m.kept[13] = l21;
 m.kept[14] = l22;
 m.kept[15] = l24;
 m.kept[16] = l25;
 m.kept[17] = l26;
 m.kept[18] = l27;
 m.kept[19] = l28;
 m.kept[20] = l29;
 m.kept[21] = l30;
 return exit;
}

static int f119_3(State m, long l1, long l2, long l3, int l5, int l6, long l7, long l8, long l9, long l10, long l11, long l12, long l13, long l14, long l15, long l16, long l17, long l19, long l20, long l21, long l22, long l23, int l24, int l25, int l26, int l27) {
 final byte[] b = m.bytes;
 int exit = 0;
 PART: {
  L143: {
   L144: {
    L145: {
     if (!(l12 == 0L)) { break L145; }
     l19 = 0L;
     l3 = 0L;
     break L144;
    }
    l25 = (l24 = (int) b[((int) l13) - 58912]) & 255;
    l10 = 1L;
    L146: {
     if (l24 > -1) { break L146; }
     l26 = (b[((int) l13) - 58911] & 0xff) & 63;
     L147: {
      if (l24 + Integer.MIN_VALUE > 2147483615) { break L147; }
      l25 = ((l25 << 6) & 1984) | l26;
      l10 = 2L;
      break L146;
     }
     l27 = (b[((int) l13) - 58910] & 0xff) & 63;
     L148: {
      if (l24 + Integer.MIN_VALUE > 2147483631) { break L148; }
      l25 = ((l26 << 6) | ((l25 << 12) & 61440)) | l27;
      l10 = 3L;
      break L146;
     }
     l25 = ((l27 << 6) | ((l26 << 12) | ((l25 << 18) & 1835008))) | ((b[((int) l13) - 58909] & 0xff) & 63);
     l10 = 4L;
    }
    l9 = -32L;
    L149: {
     L150: while (true) {
      if ((l26 = Words.get32(b, ((int) (l9 + 83884L)) - 58912)) == l25) { break L149; }
      l24 = (l9 != 0L) ? 1 : 0;
      l9 = l9 + 4L;
      if (l24 != 0) { continue L150; }
      break L150;
     }
    }
    l11 = 0L;
    L151: {
     L152: {
      L153: {
       if (l26 != l25) { break L153; }
       l11 = 0L;
       Words.put64(b, ((int) l7) - 58704, 0L);
       Words.put64(b, ((int) l7) - 58712, 0L);
       Words.put64(b, ((int) l7) - 58720, 0L);
       f129(m, l7 + 192L, l1, l2, l14 = l13 + l10, l9 = l12 - l10, l5, l6);
       if ((b[((int) l7) - 58720] & 0xff) != 1) { break L153; }
       l15 = Words.get64(b, ((int) l7) - 58712);
       l10 = Words.get64(b, ((int) l7) - 58704);
       Words.put64(b, ((int) l7) - 58664, 0L);
       Words.put64(b, ((int) l7) - 58672, 0L);
       Words.put64(b, ((int) l7) - 58680, 0L);
       Words.put64(b, ((int) l7) - 58688, 0L);
       Words.put64(b, ((int) l7) - 58696, 0L);
       Words.put64(b, ((int) l7) - 58704, 0L);
       Words.put64(b, ((int) l7) - 58712, 0L);
       Words.put64(b, ((int) l7) - 58720, 0L);
       Core3.f80(m, l7 + 192L, l3, l23, 1);
       if ((b[((int) l7) - 58720] & 0xff) != 0) { break L151; }
       if (((b[((int) l7) - 58672] & 0xff) & 255) == 3) { break L151; }
       if (Words.get64(b, ((int) l7) - 58696) <= -1L) { break L151; }
       Words.put64(b, ((int) l7) - 58728, l12);
       Words.put64(b, ((int) l7) - 58736, l13);
       Words.put64(b, ((int) l7) - 58744, l23);
       Words.put64(b, ((int) l7) - 58752, l3);
       Words.put64(b, ((int) l7) - 58760, l8);
       Words.put64(b, ((int) l7) - 58768, l1);
       l11 = 0L;
       if (f142(m, l7 + 144L) != 0) { break L153; }
       Words.put64(b, ((int) l7) - 58664, 0L);
       Words.put64(b, ((int) l7) - 58672, 0L);
       Words.put64(b, ((int) l7) - 58680, 0L);
       Words.put64(b, ((int) l7) - 58688, 0L);
       Words.put64(b, ((int) l7) - 58696, 0L);
       Words.put64(b, ((int) l7) - 58704, 0L);
       Words.put64(b, ((int) l7) - 58712, 0L);
       Words.put64(b, ((int) l7) - 58720, 0L);
       Core3.f80(m, l7 + 192L, l14, l16 = l9 - l10, 1);
       if ((b[((int) l7) - 58720] & 0xff) != 0) { break L151; }
       if (((b[((int) l7) - 58672] & 0xff) & 255) == 3) { break L151; }
       if (Words.get64(b, ((int) l7) - 58696) <= -1L) { break L151; }
       Words.put64(b, ((int) l7) - 58728, l10);
       Words.put64(b, ((int) l7) - 58736, l15);
       Words.put64(b, ((int) l7) - 58744, l16);
       Words.put64(b, ((int) l7) - 58752, l14);
       Words.put64(b, ((int) l7) - 58760, l2 = l2 - l9);
       Words.put64(b, ((int) l7) - 58768, l1);
       l11 = 0L;
       if (f142(m, l7 + 144L) != 0) { break L153; }
       l11 = 0L;
       if (f143(m, l1, l8, l15, l10) != 0) { break L153; }
       l11 = 0L;
       if (f144(m, l1, l8) != 0) { break L153; }
       m.fill((int) (l7 + 192L), 0, (int) 112L);
       L154: {
        L155: {
         if (l25 == 21040) { break L155; }
         l9 = l3;
         l20 = l23;
         if (l25 != 33267) { break L154; }
        }
        if (l23 == 0L) { break L152; }
        l26 = (l24 = (int) b[((int) l3) - 58912]) & 255;
        l9 = 1L;
        L156: {
         if (l24 > -1) { break L156; }
         l6 = (b[((int) l3) - 58911] & 0xff) & 63;
         L157: {
          if (l24 + Integer.MIN_VALUE > 2147483615) { break L157; }
          l26 = ((l26 << 6) & 1984) | l6;
          l9 = 2L;
          break L156;
         }
         l5 = (b[((int) l3) - 58910] & 0xff) & 63;
         L158: {
          if (l24 + Integer.MIN_VALUE > 2147483631) { break L158; }
          l26 = ((l6 << 6) | ((l26 << 12) & 61440)) | l5;
          l9 = 3L;
          break L156;
         }
         l26 = ((l5 << 6) | ((l6 << 12) | ((l26 << 18) & 1835008))) | ((b[((int) l3) - 58909] & 0xff) & 63);
         l9 = 4L;
        }
        if (l10 == 0L) { break L152; }
        l24 = (l6 = (int) b[((int) l15) - 58912]) & 255;
        L159: {
         if (l6 > -1) { break L159; }
         l5 = (b[((int) l15) - 58911] & 0xff) & 63;
         L160: {
          if (l6 + Integer.MIN_VALUE > 2147483615) { break L160; }
          l24 = ((l24 << 6) & 1984) | l5;
          break L159;
         }
         l27 = (b[((int) l15) - 58910] & 0xff) & 63;
         L161: {
          if (l6 + Integer.MIN_VALUE > 2147483631) { break L161; }
          l24 = ((l5 << 6) | ((l24 << 12) & 61440)) | l27;
          break L159;
         }
         l24 = ((l27 << 6) | ((l5 << 12) | ((l24 << 18) & 1835008))) | ((b[((int) l15) - 58909] & 0xff) & 63);
        }
        if (l23 != l9) { break L152; }
        if (l26 != 19968) { break L152; }
        L162: {
         if (l24 > 26375) { break L162; }
         L163: {
          switch (l24 + -26085) {
          case 0: case 17: break L151;
          case 1: case 2: case 3: case 4: case 5: case 6: case 7: case 8: case 9: case 10: case 11: case 12: case 13: case 14: case 15: case 16: break L152;
          default: break L163;
          }
         }
         if (l24 == 21495) { break L151; }
         if (l24 == 26178) { break L151; }
         break L152;
        }
        L164: {
         if (l24 > 34398) { break L164; }
         if (l24 == 26376) { break L151; }
         if (l24 == 28857) { break L151; }
         break L152;
        }
        if (l24 == 34399) { break L151; }
        if (l24 == 40670) { break L151; }
        break L152;
       }
       L165: {
        L166: while (true) {
         if ((l21 = l20) == 0L) { break L165; }
         l24 = (l26 = (int) b[((int) l9) - 58912]) & 255;
         l11 = 1L;
         L167: {
          if (l26 > -1) { break L167; }
          l6 = (b[((int) l9) - 58911] & 0xff) & 63;
          L168: {
           if (l26 + Integer.MIN_VALUE > 2147483615) { break L168; }
           l24 = ((l24 << 6) & 1984) | l6;
           l11 = 2L;
           break L167;
          }
          l5 = (b[((int) l9) - 58910] & 0xff) & 63;
          L169: {
           if (l26 + Integer.MIN_VALUE > 2147483631) { break L169; }
           l24 = ((l6 << 6) | ((l24 << 12) & 61440)) | l5;
           l11 = 3L;
           break L167;
          }
          l24 = ((l5 << 6) | ((l6 << 12) | ((l24 << 18) & 1835008))) | ((b[((int) l9) - 58909] & 0xff) & 63);
          l11 = 4L;
         }
         if ((l24 + -48) + Integer.MIN_VALUE < -2147483638) { break L165; }
         l20 = l21 - l11;
         l9 = l9 + l11;
         if ((l24 + -65296) + Integer.MIN_VALUE > -2147483639) { continue L166; }
         break L166;
        }
       }
       l9 = l14;
       l20 = l16;
       L170: {
        L171: while (true) {
         if ((l19 = l20) == 0L) { break L170; }
         l24 = (l26 = (int) b[((int) l9) - 58912]) & 255;
         l11 = 1L;
         L172: {
          if (l26 > -1) { break L172; }
          l6 = (b[((int) l9) - 58911] & 0xff) & 63;
          L173: {
           if (l26 + Integer.MIN_VALUE > 2147483615) { break L173; }
           l24 = ((l24 << 6) & 1984) | l6;
           l11 = 2L;
           break L172;
          }
          l5 = (b[((int) l9) - 58910] & 0xff) & 63;
          L174: {
           if (l26 + Integer.MIN_VALUE > 2147483631) { break L174; }
           l24 = ((l6 << 6) | ((l24 << 12) & 61440)) | l5;
           l11 = 3L;
           break L172;
          }
          l24 = ((l5 << 6) | ((l6 << 12) | ((l24 << 18) & 1835008))) | ((b[((int) l9) - 58909] & 0xff) & 63);
          l11 = 4L;
         }
         if ((l24 + -48) + Integer.MIN_VALUE < -2147483638) { break L170; }
         l20 = l19 - l11;
         l9 = l9 + l11;
         if ((l24 + -65296) + Integer.MIN_VALUE > -2147483639) { continue L171; }
         break L171;
        }
       }
       if ((l21 != 0L) ^ (l19 != 0L)) { break L151; }
       if (f145(m, l3, l23) != 0) { break L151; }
       if (f145(m, l14, l16) != 0) { break L151; }
       L175: {
        if (l16 == 0L) { break L175; }
        l24 = (l26 = (int) b[((int) l14) - 58912]) & 255;
        L176: {
         if (l26 > -1) { break L176; }
         l6 = (b[((int) l14) - 58911] & 0xff) & 63;
         L177: {
          if (l26 + Integer.MIN_VALUE > 2147483615) { break L177; }
          l24 = ((l24 << 6) & 1984) | l6;
          break L176;
         }
         l5 = (b[((int) l14) - 58910] & 0xff) & 63;
         L178: {
          L179: {
           if (l26 + Integer.MIN_VALUE > 2147483631) { break L179; }
           l24 = ((l6 << 6) | ((l24 << 12) & 61440)) | l5;
           break L178;
          }
          l24 = ((l5 << 6) | ((l6 << 12) | ((l24 << 18) & 1835008))) | ((b[((int) l14) - 58909] & 0xff) & 63);
         }
         if (l24 == 27491) { break L151; }
        }
        L180: {
         if (l24 > 35999) { break L180; }
         L181: {
          switch (l24 + -43) {
          case 0: case 2: break L151;
          case 1: break L175;
          default: break L181;
          }
         }
         if (l24 == 8722) { break L151; }
         break L175;
        }
        L182: {
         switch (l24 + -65291) {
         case 0: case 2: break L151;
         case 1: break L175;
         default: break L182;
         }
        }
        if (l24 == 36000) { break L151; }
        if (l24 == 36127) { break L151; }
       }
       L183: {
        if (l8 == 0L) { break L183; }
        L184: {
         if ((l24 = (int) b[((int) ((l9 = l1 + l8) + -1L)) - 58912]) >= 0) { break L184; }
         l11 = -2L;
         L185: {
          if ((b[((int) (l9 + -2L)) - 58912] & 0xff) + Integer.MIN_VALUE > -2147483457) { break L185; }
          l11 = ((b[((int) (l9 + -3L)) - 58912] & 0xff) + Integer.MIN_VALUE > -2147483457) ? -3L : -4L;
         }
         l24 = (l26 = (int) b[((int) (l9 = (l1 + l11) + l8)) - 58912]) & 255;
         if (l26 > -1) { break L184; }
         l6 = (b[((int) l9) - 58911] & 0xff) & 63;
         L186: {
          if (l26 + Integer.MIN_VALUE > 2147483615) { break L186; }
          l24 = ((l24 << 6) & 1984) | l6;
          break L184;
         }
         l5 = (b[((int) l9) - 58910] & 0xff) & 63;
         L187: {
          if (l26 + Integer.MIN_VALUE > 2147483631) { break L187; }
          l24 = ((l6 << 6) | ((l24 << 12) & 61440)) | l5;
          break L184;
         }
         l24 = ((l5 << 6) | ((l6 << 12) | ((l24 << 18) & 1835008))) | ((b[((int) l9) - 58909] & 0xff) & 63);
        }
        if (l24 == 64) { break L151; }
        if ((l24 + -35) + Integer.MIN_VALUE < -2147483646) { break L151; }
        if (l24 == 95) { break L151; }
        if (l24 == 215) { break L151; }
        if (l24 == 42) { break L151; }
        if (l24 == 94) { break L151; }
        if (l24 == 43) { break L151; }
        if (l24 == 61) { break L151; }
        if (l24 == 126) { break L151; }
        if (l24 == 65306) { break L151; }
        if (l24 == 58) { break L151; }
        if (l24 == 46) { break L151; }
        if ((l24 & -3) == 45) { break L151; }
        if ((l24 + -48) + Integer.MIN_VALUE < -2147483638) { break L151; }
        if ((l24 + -65296) + Integer.MIN_VALUE < -2147483638) { break L151; }
       }
       L188: {
        if (l10 == 0L) { break L188; }
        l24 = (l26 = (int) b[((int) l15) - 58912]) & 255;
        L189: {
         if (l26 > -1) { break L189; }
         l6 = (b[((int) l15) - 58911] & 0xff) & 63;
         L190: {
          if (l26 + Integer.MIN_VALUE > 2147483615) { break L190; }
          l24 = ((l24 << 6) & 1984) | l6;
          break L189;
         }
         l5 = (b[((int) l15) - 58910] & 0xff) & 63;
         L191: {
          if (l26 + Integer.MIN_VALUE > 2147483631) { break L191; }
          l24 = ((l6 << 6) | ((l24 << 12) & 61440)) | l5;
          break L189;
         }
         l24 = ((l5 << 6) | ((l6 << 12) | ((l24 << 18) & 1835008))) | ((b[((int) l15) - 58909] & 0xff) & 63);
        }
        L192: {
         switch (l24 + -42) {
         case 0: case 1: case 3: case 5: case 16: case 19: case 50: case 52: case 53: case 84: break L151;
         case 2: case 4: case 6: case 7: case 8: case 9: case 10: case 11: case 12: case 13: case 14: case 15: case 17: case 18: case 20: case 21: case 22: case 23: case 24: case 25: case 26: case 27: case 28: case 29: case 30: case 31: case 32: case 33: case 34: case 35: case 36: case 37: case 38: case 39: case 40: case 41: case 42: case 43: case 44: case 45: case 46: case 47: case 48: case 49: case 51: case 54: case 55: case 56: case 57: case 58: case 59: case 60: case 61: case 62: case 63: case 64: case 65: case 66: case 67: case 68: case 69: case 70: case 71: case 72: case 73: case 74: case 75: case 76: case 77: case 78: case 79: case 80: case 81: case 82: case 83: break L188;
         default: break L192;
         }
        }
        if (l24 == 65306) { break L151; }
        if (l24 == 215) { break L151; }
       }
       Core2.f79(m, l7 + 192L, l3, l23, l14, l16);
       l11 = 0L;
       if ((b[((int) l7) - 58720] & 0xff) == 1) { break L152; }
      }
      l19 = l12;
      l3 = 0L;
      break L143;
     }
     l22 = l25 & 0xffffffffL;
     l17 = 2L;
     l20 = l13;
     l19 = l8;
     l11 = l23;
     l21 = l12;
     l9 = l1;
     exit = 1; break PART;
    }
    l3 = 0L;
    l19 = l12;
   }
   l11 = 0L;
  }
 }
 m.kept[0] = l2;
 m.kept[1] = l3;
 m.kept[2] = l5;
 m.kept[3] = l6;
 m.kept[4] = l9;
 m.kept[5] = l10;
 m.kept[6] = l11;
 m.kept[7] = l14;
 m.kept[8] = l15;
 m.kept[9] = l16;
 m.kept[10] = l17;
 m.kept[11] = l19;
 m.kept[12] = l20;
 m.kept[13] = l21;
 m.kept[14] = l22;
 m.kept[15] = l24;
 m.kept[16] = l25;
 m.kept[17] = l26;
 m.kept[18] = l27;
 return exit;
}

static void f119(State m, long l0, long l1, long l2, long l3, long l4, int l5, int l6) {
 final byte[] b = m.bytes;
 long l7 = 0;
 long l8 = 0;
 long l9 = 0;
 long l10 = 0;
 long l11 = 0;
 long l12 = 0;
 long l13 = 0;
 long l14 = 0;
 long l15 = 0;
 long l16 = 0;
 long l17 = 0;
 long l18 = 0;
 long l19 = 0;
 long l20 = 0;
 long l21 = 0;
 long l22 = 0;
 long l23 = 0;
 int l24 = 0;
 int l25 = 0;
 int l26 = 0;
 int l27 = 0;
 int l28 = 0;
 int l29 = 0;
 int l30 = 0;
 m.g0 = l7 = m.g0 - 304L;
 L1: {
  L2: {
   L3: {
    if ((l7 = l7) < 16L) { break L3; }
    L4: {
     if (f128(m, l3, l4) != 0) { break L4; }
     l8 = l2 - l4;
     break L2;
    }
    l8 = 0L;
    Words.put64(b, ((int) l7) - 58704, 0L);
    Words.put64(b, ((int) l7) - 58712, 0L);
    Words.put64(b, ((int) l7) - 58720, 0L);
    if (l2 == l4) { break L2; }
    L5: {
     if (((int) b[((int) (l1 + (l9 = (l8 = l2 - l4) + -1L))) - 58912]) > -1) { break L5; }
     l9 = -2L;
     L6: {
      if ((b[((int) ((l10 = l1 + l8) + -2L)) - 58912] & 0xff) + Integer.MIN_VALUE > -2147483457) { break L6; }
      l9 = ((b[((int) (l10 + -3L)) - 58912] & 0xff) + Integer.MIN_VALUE > -2147483457) ? -3L : -4L;
     }
     l9 = l9 + l8;
    }
    f129(m, l7 + 192L, l1, l2, l1 + l9, l2 - l9, l5, l6);
    if ((b[((int) l7) - 58720] & 0xff) != 1) { break L2; }
    if (Words.get64(b, ((int) l7) - 58704) == l4) { break L2; }
    m.fill((int) l0, 0, (int) 128L);
    break L1;
   }
   throw State.trap();
  }
  l10 = 0L;
  Words.put64(b, ((int) l7) - 58744, 0L);
  Words.put64(b, ((int) l7) - 58752, 0L);
  Words.put64(b, ((int) l7) - 58760, 0L);
  Words.put64(b, ((int) l7) - 58768, 0L);
  Words.put64(b, ((int) l7) - 58696, 0L);
  Words.put64(b, ((int) l7) - 58704, 0L);
  Words.put64(b, ((int) l7) - 58712, 0L);
  Words.put64(b, ((int) l7) - 58720, 0L);
  l9 = 83372L;
  L7: {
   L8: {
    if (f130(m, l3, l4) != 0) { break L8; }
    l11 = 0L;
    break L7;
   }
   f131(m, l7 + 192L, l3, l4);
   l11 = Words.get64(b, ((int) l7) - 58696);
   l12 = Words.get64(b, ((int) l7) - 58704);
   L9: {
    L10: {
     if (!(l4 == 0L)) { break L10; }
     l24 = 0;
     break L9;
    }
    l24 = (l25 = (int) b[((int) l3) - 58912]) & 255;
    L11: {
     if (l25 > -1) { break L11; }
     l26 = (b[((int) l3) - 58911] & 0xff) & 63;
     L12: {
      if (l25 + Integer.MIN_VALUE > 2147483615) { break L12; }
      l24 = ((l24 << 6) & 1984) | l26;
      break L11;
     }
     l27 = (b[((int) l3) - 58910] & 0xff) & 63;
     L13: {
      if (l25 + Integer.MIN_VALUE > 2147483631) { break L13; }
      l24 = ((l26 << 6) | ((l24 << 12) & 61440)) | l27;
      break L11;
     }
     l24 = ((l27 << 6) | ((l26 << 12) | ((l24 << 18) & 1835008))) | ((b[((int) l3) - 58909] & 0xff) & 63);
    }
    l24 = (((l24 + -48) + Integer.MIN_VALUE < -2147483638) | ((l24 + -65296) + Integer.MIN_VALUE < -2147483638)) ? 1 : 0;
   }
   f132(m, l7 + 40L, l24, l12, l11);
   L14: {
    if (!(Words.get64(b, ((int) l7) - 58864) == 0L)) { break L14; }
    l11 = 0L;
    break L7;
   }
   l24 = (l25 = (int) b[((int) (l11 = Words.get64(b, ((int) l7) - 58872))) - 58912]) & 255;
   L15: {
    if (l25 > -1) { break L15; }
    l26 = (b[((int) l11) - 58911] & 0xff) & 63;
    L16: {
     if (l25 + Integer.MIN_VALUE > 2147483615) { break L16; }
     l24 = ((l24 << 6) & 1984) | l26;
     break L15;
    }
    l27 = (b[((int) l11) - 58910] & 0xff) & 63;
    L17: {
     if (l25 + Integer.MIN_VALUE > 2147483631) { break L17; }
     l24 = ((l26 << 6) | ((l24 << 12) & 61440)) | l27;
     break L15;
    }
    l24 = ((l27 << 6) | ((l26 << 12) | ((l24 << 18) & 1835008))) | ((b[((int) l11) - 58909] & 0xff) & 63);
   }
   l11 = 4L;
   L18: {
    L19: {
     L20: {
      L21: {
       L22: {
        L23: {
         L24: {
          L25: {
           L26: {
            L27: {
             L28: {
              L29: {
               L30: {
                L31: {
                 L32: {
                  L33: {
                   L34: {
                    L35: {
                     L36: {
                      L37: {
                       L38: {
                        L39: {
                         L40: {
                          L41: {
                           L42: {
                            if (l24 > 26084) { break L42; }
                            L43: {
                             if (l24 > 21494) { break L43; }
                             L44: {
                              if (l24 > 20009) { break L44; }
                              L45: {
                               switch (l24 + -45) {
                               case 0: break L30;
                               case 1: case 3: case 4: case 5: case 6: case 7: case 8: case 9: case 10: case 11: case 12: break L23;
                               case 2: break L29;
                               case 13: break L31;
                               default: break L45;
                               }
                              }
                              if (l24 == 126) { break L22; }
                              if (l24 != 12316) { break L23; }
                              break L22;
                             }
                             L46: {
                              if (l24 > 20997) { break L46; }
                              switch (l24 + -20491) {
                              case 0: break L21;
                              case 1: break L23;
                              case 2: break L18;
                              default: break L24;
                              }
                             }
                             if (l24 == 20998) { break L27; }
                             if (l24 != 21040) { break L23; }
                             break L22;
                            }
                            L47: {
                             if (l24 > 23566) { break L47; }
                             L48: {
                              if (l24 > 21607) { break L48; }
                              if (l24 == 21495) { break L39; }
                              if (l24 == 21544) { break L18; }
                              break L23;
                             }
                             if (l24 == 21608) { break L18; }
                             if (l24 == 22136) { break L18; }
                             if (l24 == 22825) { break L18; }
                             break L23;
                            }
                            L49: {
                             if (l24 > 24179) { break L49; }
                             if (l24 == 23567) { break L19; }
                             if (l24 == 23681) { break L18; }
                             break L23;
                            }
                            L50: {
                             if (l24 != 24180) { break L50; }
                             l9 = 83780L;
                             break L7;
                            }
                            if (l24 == 24230) { break L41; }
                            if (l24 == 26020) { break L18; }
                            break L23;
                           }
                           if (l24 > 33266) { break L40; }
                           L51: {
                            if (l24 > 27603) { break L51; }
                            L52: {
                             if (l24 > 26375) { break L52; }
                             switch (l24 + -26085) {
                             case 0: break L39;
                             case 1: case 2: case 3: case 4: case 5: case 6: case 7: case 8: case 9: case 10: case 11: case 12: case 13: case 14: case 15: case 16: break L23;
                             case 17: break L32;
                             default: break L33;
                             }
                            }
                            if (l24 == 26376) { break L34; }
                            if (l24 != 27506) { break L23; }
                            break L18;
                           }
                           L53: {
                            if (l24 > 31185) { break L53; }
                            if (l24 == 27604) { break L25; }
                            if (l24 == 28857) { break L36; }
                            break L23;
                           }
                           if (l24 == 31186) { break L26; }
                           if (l24 != 31859) { break L23; }
                          }
                          l9 = 83820L;
                          break L20;
                         }
                         if (l24 > 38046) { break L37; }
                         if (l24 > 36912) { break L38; }
                         if (l24 == 33267) { break L22; }
                         if (l24 != 34399) { break L23; }
                        }
                        l9 = 83788L;
                        l11 = 2L;
                        break L7;
                       }
                       if (l24 == 36913) { break L18; }
                       if (l24 == 37324) { break L18; }
                       if (l24 != 37912) { break L23; }
                       break L19;
                      }
                      if (l24 > 65292) { break L35; }
                      if (l24 == 38047) { break L19; }
                      if (l24 != 40670) { break L23; }
                     }
                     l9 = 83790L;
                     l11 = 7L;
                     break L7;
                    }
                    switch (l24 + -65293) {
                    case 0: break L22;
                    case 1: case 2: case 3: case 4: case 5: case 6: case 7: case 8: case 9: case 10: case 11: case 12: break L23;
                    case 13: break L31;
                    default: break L28;
                    }
                   }
                   l9 = 83784L;
                   break L7;
                  }
                  if (l24 != 26178) { break L23; }
                 }
                 l9 = 83797L;
                 l11 = 5L;
                 break L7;
                }
                l9 = 83802L;
                break L20;
               }
               l9 = 83805L;
               break L7;
              }
              l9 = 83809L;
              l11 = 1L;
              break L7;
             }
             if (l24 != 65374) { break L23; }
             break L22;
            }
            l9 = 83818L;
            l11 = 1L;
            break L7;
           }
           l9 = 83823L;
           l11 = 2L;
           break L7;
          }
          l9 = 83825L;
          l11 = 1L;
          break L7;
         }
         if (l24 == 20010) { break L21; }
        }
        l11 = 0L;
        if ((l24 + -8211) + Integer.MIN_VALUE > -2147483647) { break L7; }
       }
       l9 = 83810L;
       break L20;
      }
      l9 = 83813L;
     }
     l11 = 3L;
     break L7;
    }
    l9 = 83816L;
    l11 = 2L;
    break L7;
   }
   l9 = 83819L;
   l11 = 1L;
  }
  l24 = 0;
  f133(m, l7 + 144L, l1, l8, l3, l4, 0, l9, l11);
  l12 = Words.get64(b, ((int) l7) - 58744);
  l13 = Words.get64(b, ((int) l7) - 58752);
  l14 = Words.get64(b, ((int) l7) - 58760);
  l25 = b[((int) l7) - 58768] & 0xff;
  L54: {
   L55: {
    L56: {
     if ((l28 = (l4 == 0L) ? 1 : 0) == 0) { break L56; }
     l24 = 0;
     break L55;
    }
    l26 = (l27 = (int) b[((int) l3) - 58912]) & 255;
    L57: {
     if (l27 > -1) { break L57; }
     l29 = (b[((int) l3) - 58911] & 0xff) & 63;
     L58: {
      if (l27 + Integer.MIN_VALUE > 2147483615) { break L58; }
      l26 = ((l26 << 6) & 1984) | l29;
      break L57;
     }
     l30 = (b[((int) l3) - 58910] & 0xff) & 63;
     L59: {
      if (l27 + Integer.MIN_VALUE > 2147483631) { break L59; }
      l26 = ((l29 << 6) | ((l26 << 12) & 61440)) | l30;
      break L57;
     }
     l26 = ((l30 << 6) | ((l29 << 12) | ((l26 << 18) & 1835008))) | ((b[((int) l3) - 58909] & 0xff) & 63);
    }
    l10 = 0L;
    if (f127(m, l26) == 0) { break L55; }
    Words.put64(b, ((int) l7) - 58696, 0L);
    Words.put64(b, ((int) l7) - 58704, 0L);
    Words.put64(b, ((int) l7) - 58712, 0L);
    Words.put64(b, ((int) l7) - 58720, 0L);
    Words.put64(b, ((int) l7) - 58752, 0L);
    Words.put64(b, ((int) l7) - 58760, 0L);
    Words.put64(b, ((int) l7) - 58768, 0L);
    f134(m, l7 + 144L, 21, l3, l4);
    l9 = 0L;
    l11 = 0L;
    l10 = 0L;
    l26 = 1;
    L60: {
     if ((b[((int) l7) - 58768] & 0xff) != 1) { break L60; }
     f133(m, l7 + 192L, l1, l8, l3, l4, 1, 85336L, 9L);
     l26 = ((b[((int) l7) - 58720] & 0xff) == 0) ? 1 : 0;
     l9 = Words.get64(b, ((int) l7) - 58696);
     l11 = Words.get64(b, ((int) l7) - 58704);
     l10 = Words.get64(b, ((int) l7) - 58712);
    }
    Words.put64(b, ((int) l7) - 58696, 0L);
    Words.put64(b, ((int) l7) - 58704, 0L);
    Words.put64(b, ((int) l7) - 58712, 0L);
    Words.put64(b, ((int) l7) - 58720, 0L);
    Words.put64(b, ((int) l7) - 58752, 0L);
    Words.put64(b, ((int) l7) - 58760, 0L);
    Words.put64(b, ((int) l7) - 58768, 0L);
    f134(m, l7 + 144L, 22, l3, l4);
    L61: {
     L62: {
      if ((b[((int) l7) - 58768] & 0xff) != 1) { break L62; }
      f133(m, l7 + 192L, l1, l8, l3, l4, 2, 85336L, 9L);
      l15 = Words.get64(b, ((int) l7) - 58696);
      l16 = Words.get64(b, ((int) l7) - 58704);
      l17 = Words.get64(b, ((int) l7) - 58712);
      l24 = b[((int) l7) - 58720] & 0xff;
      if (l26 == 0) { break L61; }
      l10 = l17;
      l11 = l16;
      l9 = l15;
      break L54;
     }
     l24 = 1;
     if (l26 == 0) { break L54; }
     l10 = 0L;
     l24 = 0;
     break L55;
    }
    l26 = l24 & 255;
    l24 = 1;
    if (l26 == 0) { break L54; }
    l9 = ((l26 = (l15 + Long.MIN_VALUE < l9 + Long.MIN_VALUE) ? 1 : 0) != 0) ? l15 : l9;
    l11 = l26 != 0 ? l16 : l11;
    l10 = l26 != 0 ? l17 : l10;
    break L54;
   }
   l11 = 0L;
   l9 = 0L;
  }
  L63: {
   L64: {
    L65: {
     if ((l25 & 255) == 0) { break L65; }
     L66: {
      if ((l24 & 255) != 0) { break L66; }
      l9 = l12;
      l11 = l13;
      l10 = l14;
      break L64;
     }
     l9 = ((l24 = (l9 + Long.MIN_VALUE < l12 + Long.MIN_VALUE) ? 1 : 0) != 0) ? l9 : l12;
     l11 = l24 != 0 ? l11 : l13;
     l10 = l24 != 0 ? l10 : l14;
     break L64;
    }
    if ((l24 & 255) != 1) { break L63; }
   }
   Words.put64(b, ((int) l7) - 58704, 0L);
   Words.put64(b, ((int) l7) - 58712, 0L);
   Words.put64(b, ((int) l7) - 58720, 0L);
   L67: {
    if (l2 == l9) { break L67; }
    L68: {
     if (((int) b[((int) (l1 + (l12 = (l13 = l2 - l9) + -1L))) - 58912]) > -1) { break L68; }
     l12 = -2L;
     L69: {
      if ((b[((int) ((l14 = l1 + l13) + -2L)) - 58912] & 0xff) + Integer.MIN_VALUE > -2147483457) { break L69; }
      l12 = ((b[((int) (l14 + -3L)) - 58912] & 0xff) + Integer.MIN_VALUE > -2147483457) ? -3L : -4L;
     }
     l12 = l12 + l13;
    }
    f129(m, l7 + 192L, l1, l2, l1 + l12, l2 - l12, l5, l6);
    if ((b[((int) l7) - 58720] & 0xff) != 1) { break L67; }
    if (Words.get64(b, ((int) l7) - 58704) != l9) { break L63; }
   }
   Words.put64(b, ((int) l0) - 58912, 1L);
   Words.put64(b, ((int) (l0 + 32L)) - 58912, l9);
   Words.put64(b, ((int) (l0 + 24L)) - 58912, l11);
   Words.put64(b, ((int) (l0 + 16L)) - 58912, l10);
   Words.put64(b, ((int) (l0 + 8L)) - 58912, 0L);
   m.fill((int) (l0 + 40L), 0, (int) 88L);
   break L1;
  }
  final int x89 = f119_1(m, l0, l1, l2, l3, l4, l5, l6, l7, l8, l9, l10, l11, l12, l13, l14, l24, l25, l26, l27, l28);
  l9 = m.kept[0];
  l10 = m.kept[1];
  l11 = m.kept[2];
  l12 = m.kept[3];
  l13 = m.kept[4];
  l14 = m.kept[5];
  l24 = (int) m.kept[6];
  l25 = (int) m.kept[7];
  l26 = (int) m.kept[8];
  l27 = (int) m.kept[9];
  l28 = (int) m.kept[10];
  switch (x89) {
  case 1: break L1;
  }
  l9 = 0L;
  Words.put64(b, ((int) l7) - 58704, 0L);
  Words.put64(b, ((int) l7) - 58712, 0L);
  Words.put64(b, ((int) l7) - 58720, 0L);
  f129(m, l7 + 192L, l1, l2, l3, l4, l5, l6);
  L90: {
   L91: {
    if ((l18 = b[((int) l7) - 58720] & 0xffL) == 1L) { break L91; }
    l19 = 0L;
    l3 = 0L;
    l11 = 0L;
    l20 = 0L;
    l21 = 0L;
    l22 = 0L;
    l1 = 0L;
    l2 = 0L;
    l14 = 0L;
    l16 = 0L;
    l15 = 0L;
    l10 = 0L;
    l4 = 0L;
    l17 = 0L;
    break L90;
   }
   l13 = Words.get64(b, ((int) l7) - 58712);
   l12 = Words.get64(b, ((int) l7) - 58704);
   Words.put64(b, ((int) l7) - 58728, 0L);
   Words.put64(b, ((int) l7) - 58736, 0L);
   Words.put64(b, ((int) l7) - 58744, 0L);
   Words.put64(b, ((int) l7) - 58752, 0L);
   Words.put64(b, ((int) l7) - 58760, 0L);
   Words.put64(b, ((int) l7) - 58768, 0L);
   l9 = l3;
   l10 = l23 = l4 - l12;
   L92: {
    L93: while (true) {
     if ((l11 = l10) == 0L) { break L92; }
     l24 = (l25 = (int) b[((int) l9) - 58912]) & 255;
     l4 = 1L;
     L94: {
      if (l25 > -1) { break L94; }
      l26 = (b[((int) l9) - 58911] & 0xff) & 63;
      L95: {
       if (l25 + Integer.MIN_VALUE > 2147483615) { break L95; }
       l24 = ((l24 << 6) & 1984) | l26;
       l4 = 2L;
       break L94;
      }
      l27 = (b[((int) l9) - 58910] & 0xff) & 63;
      L96: {
       if (l25 + Integer.MIN_VALUE > 2147483631) { break L96; }
       l24 = ((l26 << 6) | ((l24 << 12) & 61440)) | l27;
       l4 = 3L;
       break L94;
      }
      l24 = ((l27 << 6) | ((l26 << 12) | ((l24 << 18) & 1835008))) | ((b[((int) l9) - 58909] & 0xff) & 63);
      l4 = 4L;
     }
     if ((l24 + -48) + Integer.MIN_VALUE < -2147483638) { break L92; }
     l10 = l11 - l4;
     l9 = l9 + l4;
     if ((l24 + -65296) + Integer.MIN_VALUE > -2147483639) { continue L93; }
     break L93;
    }
   }
   f132(m, l7 + 8L, (l11 != 0L) ? 1 : 0, l13, l12);
   l9 = Words.get64(b, ((int) l7) - 58904);
   l11 = Words.get64(b, ((int) l7) - 58896);
   Words.put64(b, ((int) l7) - 58840, 0L);
   Words.put64(b, ((int) l7) - 58848, 0L);
   Words.put64(b, ((int) l7) - 58856, 0L);
   Words.put64(b, ((int) l7) - 58808, 0L);
   Words.put64(b, ((int) l7) - 58816, 0L);
   Words.put64(b, ((int) l7) - 58824, 0L);
   Words.put64(b, ((int) l7) - 58832, 0L);
   final int x142 = f119_2(m, l1, l2, l3, l4, l7, l8, l9, l10, l11, l12, l13, l14, l15, l16, l17, l19, l20, l21, l22, l23, l24, l25, l26, l27, l28, l29, l30);
   l1 = m.kept[0];
   l2 = m.kept[1];
   l3 = m.kept[2];
   l4 = m.kept[3];
   l9 = m.kept[4];
   l10 = m.kept[5];
   l11 = m.kept[6];
   l14 = m.kept[7];
   l15 = m.kept[8];
   l16 = m.kept[9];
   l17 = m.kept[10];
   l19 = m.kept[11];
   l20 = m.kept[12];
   l21 = m.kept[13];
   l22 = m.kept[14];
   l24 = (int) m.kept[15];
   l25 = (int) m.kept[16];
   l26 = (int) m.kept[17];
   l27 = (int) m.kept[18];
   l28 = (int) m.kept[19];
   l29 = (int) m.kept[20];
   l30 = (int) m.kept[21];
   switch (x142) {
   case 1: break L90;
   }
   l17 = 3L;
   l4 = 0L;
   final int x193 = f119_3(m, l1, l2, l3, l5, l6, l7, l8, l9, l10, l11, l12, l13, l14, l15, l16, l17, l19, l20, l21, l22, l23, l24, l25, l26, l27);
   l2 = m.kept[0];
   l3 = m.kept[1];
   l5 = (int) m.kept[2];
   l6 = (int) m.kept[3];
   l9 = m.kept[4];
   l10 = m.kept[5];
   l11 = m.kept[6];
   l14 = m.kept[7];
   l15 = m.kept[8];
   l16 = m.kept[9];
   l17 = m.kept[10];
   l19 = m.kept[11];
   l20 = m.kept[12];
   l21 = m.kept[13];
   l22 = m.kept[14];
   l24 = (int) m.kept[15];
   l25 = (int) m.kept[16];
   l26 = (int) m.kept[17];
   l27 = (int) m.kept[18];
   switch (x193) {
   case 1: break L90;
   }
   l20 = 0L;
   l21 = 0L;
   l22 = 0L;
   l1 = 0L;
   l2 = 0L;
   l14 = 0L;
   l16 = 0L;
   l15 = 0L;
   l10 = 0L;
   l9 = l13;
  }
  Words.put64(b, ((int) l0) - 58912, l18);
  Words.put64(b, ((int) (l0 + 120L)) - 58912, l4);
  Words.put64(b, ((int) (l0 + 112L)) - 58912, l10);
  Words.put64(b, ((int) (l0 + 104L)) - 58912, l15);
  Words.put64(b, ((int) (l0 + 96L)) - 58912, l16);
  Words.put64(b, ((int) (l0 + 88L)) - 58912, l14);
  Words.put64(b, ((int) (l0 + 80L)) - 58912, l2);
  Words.put64(b, ((int) (l0 + 72L)) - 58912, l1);
  Words.put64(b, ((int) (l0 + 64L)) - 58912, l22);
  Words.put64(b, ((int) (l0 + 56L)) - 58912, l21);
  Words.put64(b, ((int) (l0 + 48L)) - 58912, l20);
  Words.put64(b, ((int) (l0 + 40L)) - 58912, l11);
  Words.put64(b, ((int) (l0 + 32L)) - 58912, l3);
  Words.put64(b, ((int) (l0 + 24L)) - 58912, l19);
  Words.put64(b, ((int) (l0 + 16L)) - 58912, l9);
  Words.put64(b, ((int) (l0 + 8L)) - 58912, l17);
 }
 m.g0 = l7 + 304L;
}

static void f120(State m, long l0, int l1, long l2) {
 final byte[] b = m.bytes;
 int l3 = 0;
 int l4 = 0;
 int l5 = 0;
 int l6 = 0;
 int l7 = 0;
 int l8 = 0;
 int l9 = 0;
 int l10 = 0;
 int l11 = 0;
 int l12 = 0;
 int l13 = 0;
 L1: {
  L2: {
   L3: {
    L4: {
     L5: {
      L6: {
       L7: {
        L8: {
         if (m.g0 < 16L) { break L8; }
         l3 = Words.get16(b, ((int) l2) - 58908) & 0xffff;
         l4 = Words.get16(b, ((int) l2) - 58910) & 0xffff;
         l5 = Words.get16(b, ((int) l2) - 58912) & 0xffff;
         L9: {
          L10: {
           L11: {
            L12: {
             L13: {
              L14: {
               L15: {
                L16: {
                 L17: {
                  L18: {
                   L19: {
                    L20: {
                     L21: {
                      L22: {
                       L23: {
                        L24: {
                         L25: {
                          L26: {
                           L27: {
                            L28: {
                             L29: {
                              L30: {
                               L31: {
                                L32: {
                                 L33: {
                                  L34: {
                                   L35: {
                                    switch ((int) ((l1 & 0xffffffffL) & 255L)) {
                                    case 1: break L33;
                                    case 2: break L34;
                                    case 3: break L32;
                                    case 4: case 12: break L31;
                                    case 7: break L26;
                                    case 8: case 9: break L25;
                                    case 10: case 11: break L24;
                                    case 13: break L30;
                                    case 14: case 20: break L23;
                                    case 15: case 16: case 17: case 21: break L22;
                                    case 18: break L21;
                                    case 19: break L20;
                                    case 22: break L19;
                                    case 23: break L18;
                                    case 24: break L17;
                                    case 25: break L16;
                                    case 26: case 27: break L14;
                                    case 28: break L13;
                                    case 29: break L12;
                                    case 30: case 31: break L11;
                                    default: break L35;
                                    }
                                   }
                                   if (((l4 + -1) & 65535) + Integer.MIN_VALUE > -2147483637) { break L5; }
                                   L36: {
                                    L37: {
                                     if ((l4 & 65535) != 2) { break L37; }
                                     l6 = 28;
                                     if (((l1 = ((l5 & 65535) + Integer.MIN_VALUE < -2147483548) ? 2000 : l5) & 3) != 0) { break L36; }
                                     final int t38 = (((int) (((l1 = l1 & 65535) & 0xffffffffL) % 400L)) != 0) ? 28 : 29;
                                     final int t39 = (int) ((l1 & 0xffffffffL) % 100L);
                                     l6 = t39 != 0 ? 29 : t38;
                                     break L36;
                                    }
                                    final int t40 = ((l1 = l4 & 13) == 9) ? 30 : 31;
                                    final int t41 = (l1 == 4) ? 1 : 0;
                                    l6 = t41 != 0 ? 30 : t40;
                                   }
                                   l1 = 0;
                                   if (((l3 + -1) & 65535) + Integer.MIN_VALUE > -2147483394) { break L4; }
                                   l7 = 0;
                                   l8 = 0;
                                   l9 = 0;
                                   l10 = 0;
                                   l11 = 0;
                                   l12 = 0;
                                   l13 = 0;
                                   if (l3 + Integer.MIN_VALUE > l6 + Integer.MIN_VALUE) { break L1; }
                                   l13 = ((l3 << 24) | ((l4 << 8) & 65280)) | 65537;
                                   l12 = (l5 & 65280) >>> 8;
                                   l1 = 1;
                                   l7 = 0;
                                   l8 = 0;
                                   l9 = 1;
                                   l10 = 0;
                                   l11 = l5;
                                   break L1;
                                  }
                                  if (((l4 + -1) & 65535) + Integer.MIN_VALUE > -2147483637) { break L5; }
                                  l5 = 29;
                                  L42: {
                                   if ((l4 & 65535) == 2) { break L42; }
                                   final int t43 = ((l1 = l4 & 13) == 9) ? 30 : 31;
                                   final int t44 = (l1 == 4) ? 1 : 0;
                                   l5 = t44 != 0 ? 30 : t43;
                                  }
                                  l1 = 0;
                                  if (((l3 + -1) & 65535) + Integer.MIN_VALUE > -2147483394) { break L4; }
                                  l7 = 0;
                                  l8 = 0;
                                  l9 = 0;
                                  l10 = 0;
                                  l11 = 0;
                                  l12 = 0;
                                  l13 = 0;
                                  if (l3 + Integer.MIN_VALUE > l5 + Integer.MIN_VALUE) { break L1; }
                                  l13 = ((l3 << 24) | ((l4 << 8) & 65280)) | 65537;
                                  break L29;
                                 }
                                 L45: {
                                  if (((l3 + -1) & 65535) + Integer.MIN_VALUE > -2147483637) { break L45; }
                                  l12 = (l4 & 65280) >>> 8;
                                  l1 = 1;
                                  l13 = ((l3 << 8) | 1) & 65281;
                                  l7 = 0;
                                  l8 = 0;
                                  l9 = 1;
                                  l10 = 0;
                                  l11 = l4;
                                  break L1;
                                 }
                                 Words.put32(b, ((int) l0) - 58904, 0);
                                 Words.put64(b, ((int) l0) - 58912, 0L);
                                 return;
                                }
                                l12 = l3 >>> 8;
                                l7 = 0;
                                l1 = 1;
                                l8 = 0;
                                l9 = 1;
                                l10 = 0;
                                break L9;
                               }
                               L46: {
                                if (((l3 + -1) & 65535) + Integer.MIN_VALUE > -2147483637) { break L46; }
                                l1 = 1;
                                l13 = ((l3 << 8) | 1) & 65281;
                                l7 = 0;
                                break L28;
                               }
                               Words.put32(b, ((int) l0) - 58904, 0);
                               Words.put64(b, ((int) l0) - 58912, 0L);
                               return;
                              }
                              if (((l3 + -1) & 65535) + Integer.MIN_VALUE > -2147483618) { break L27; }
                              l13 = (l3 << 24) | 65536;
                             }
                             l7 = 0;
                             l1 = 1;
                            }
                            l8 = 0;
                            l9 = 0;
                            l10 = 0;
                            l11 = 0;
                            l12 = 0;
                            break L1;
                           }
                           Words.put32(b, ((int) l0) - 58904, 0);
                           Words.put64(b, ((int) l0) - 58912, 0L);
                           return;
                          }
                          l8 = 0;
                          l12 = (l11 = ((l1 = ((l4 & 65535) + Integer.MIN_VALUE < l3 + Integer.MIN_VALUE) ? 1 : 0) != 0) ? l3 : 0) >>> 8;
                          l10 = ((l9 = l1 != 0 ? l4 : 0) & 65280) >>> 8;
                          l7 = l1;
                          break L2;
                         }
                         if (((l4 + -1) & 65535) + Integer.MIN_VALUE > -2147483637) { break L5; }
                         l1 = 0;
                         if (((l3 + -1) & 65535) + Integer.MIN_VALUE > -2147483637) { break L4; }
                         l7 = 0;
                         l8 = 0;
                         l9 = 0;
                         l10 = 0;
                         l11 = 0;
                         l12 = 0;
                         l13 = 0;
                         if ((l4 & 65535) + Integer.MIN_VALUE >= l3 + Integer.MIN_VALUE) { break L1; }
                         l10 = 0;
                         l7 = 2;
                         break L7;
                        }
                        if (((l4 + -1) & 65535) + Integer.MIN_VALUE > -2147483618) { break L5; }
                        l1 = 0;
                        if (((l3 + -1) & 65535) + Integer.MIN_VALUE > -2147483618) { break L4; }
                        l7 = 0;
                        l8 = 0;
                        l9 = 0;
                        l10 = 0;
                        l11 = 0;
                        l12 = 0;
                        l13 = 0;
                        if ((l4 & 65535) + Integer.MIN_VALUE >= l3 + Integer.MIN_VALUE) { break L1; }
                        l10 = 0;
                        l7 = 3;
                        break L7;
                       }
                       L47: {
                        L48: {
                         if ((l7 = l5 & 65535) + Integer.MIN_VALUE > -2147483625) { break L48; }
                         if ((l4 & 65535) + Integer.MIN_VALUE > -2147483589) { break L48; }
                         if (l3 + Integer.MIN_VALUE < -2147483588) { break L47; }
                        }
                        l1 = 0;
                        if (l7 != 24) { break L4; }
                        l7 = 0;
                        l8 = 0;
                        l9 = 0;
                        l10 = 0;
                        l11 = 0;
                        l12 = 0;
                        l13 = 0;
                        if (((l3 | l4) & 65535) != 0) { break L1; }
                       }
                       l11 = 0;
                       l7 = 4;
                       l1 = 1;
                       l8 = l5;
                       l9 = l4;
                       l10 = l3;
                       l12 = 0;
                       break L2;
                      }
                      L49: {
                       L50: {
                        if ((l7 = l4 & 65535) + Integer.MIN_VALUE > -2147483625) { break L50; }
                        if (l3 + Integer.MIN_VALUE < -2147483588) { break L49; }
                       }
                       l1 = 0;
                       if (l7 != 24) { break L4; }
                       l7 = 0;
                       l8 = 0;
                       l9 = 0;
                       l10 = 0;
                       l11 = 0;
                       l12 = 0;
                       l13 = 0;
                       if (l3 != 0) { break L1; }
                      }
                      l10 = 0;
                      l7 = 4;
                      break L7;
                     }
                     if (l3 + Integer.MIN_VALUE > -2147483625) { break L5; }
                     l10 = 0;
                     l9 = 30;
                     l7 = 4;
                     l1 = 1;
                     l8 = l3;
                     break L3;
                    }
                    L51: {
                     if (((l3 + -1) & 65535) + Integer.MIN_VALUE > -2147483646) { break L51; }
                     if ((l4 & 65535) + Integer.MIN_VALUE > -2147483625) { break L5; }
                     l9 = l3 * 15;
                     l10 = 0;
                     l7 = 4;
                     l1 = 1;
                     l8 = l4;
                     break L3;
                    }
                    Words.put32(b, ((int) l0) - 58904, 0);
                    Words.put64(b, ((int) l0) - 58912, 0L);
                    return;
                   }
                   l9 = 0;
                   l8 = ((l1 = (l3 + Integer.MIN_VALUE < -2147483623) ? 1 : 0) != 0) ? l3 : 0;
                   l7 = l1 != 0 ? 4 : 0;
                   l10 = 0;
                   break L3;
                  }
                  if (l3 + Integer.MIN_VALUE > -2147483589) { break L5; }
                  L52: {
                   if ((l5 & 65535) == 0) { break L52; }
                   if ((l4 & 65535) + Integer.MIN_VALUE > -2147483589) { break L5; }
                  }
                  l12 = (l4 & 65280) >>> 8;
                  l10 = (l5 & 65280) >>> 8;
                  l8 = 0;
                  l7 = 5;
                  l1 = 1;
                  l9 = l5;
                  break L15;
                 }
                 L53: {
                  if ((l4 & 65535) == 0) { break L53; }
                  if (l3 + Integer.MIN_VALUE > -2147483589) { break L5; }
                 }
                 l12 = l3 >>> 8;
                 l10 = (l4 & 65280) >>> 8;
                 l8 = 0;
                 l7 = 5;
                 break L10;
                }
                if (l3 + Integer.MIN_VALUE > -2147483589) { break L5; }
                l12 = (l4 & 65280) >>> 8;
                l8 = 0;
                l7 = 5;
                l1 = 1;
                l9 = 0;
                l10 = 0;
               }
               l11 = l4;
               l13 = l3;
               break L1;
              }
              l10 = l3 >>> 8;
              l8 = 0;
              l7 = 6;
              l1 = 1;
              break L6;
             }
             if (l3 + Integer.MIN_VALUE > -2147483549) { break L5; }
             l10 = (l4 & 65280) >>> 8;
             l8 = 0;
             l1 = 1;
             l7 = 7;
             l9 = l4;
             l11 = l3;
             l12 = 1;
             break L2;
            }
            if (l3 + Integer.MIN_VALUE > -2147483549) { break L5; }
            l10 = (l4 & 65280) >>> 8;
            l8 = 0;
            l12 = 2;
            l7 = 7;
            break L10;
           }
           l7 = 8;
           l12 = l3 >>> 8;
           l10 = (l4 & 65280) >>> 8;
           l8 = 0;
          }
          l1 = 1;
          l9 = l4;
         }
         l11 = l3;
         break L2;
        }
        throw State.trap();
       }
       l1 = 1;
       l8 = l4;
      }
      l9 = l3;
      break L3;
     }
     l1 = 0;
    }
    l7 = 0;
    l8 = 0;
    l9 = 0;
    l10 = 0;
   }
   l11 = 0;
   l12 = 0;
  }
  l13 = 0;
 }
 Words.put16(b, ((int) l0) - 58912, (short) l1);
 Words.put32(b, ((int) (l0 + 8L)) - 58912, l13);
 b[((int) (l0 + 3L)) - 58912] = (byte) l8;
 b[((int) (l0 + 2L)) - 58912] = (byte) l7;
 Words.put16(b, ((int) (l0 + 6L)) - 58912, (short) ((l12 << 8) | (l11 & 255)));
 Words.put16(b, ((int) (l0 + 4L)) - 58912, (short) ((l10 << 8) | (l9 & 255)));
}

static int f121(State m, long l0, long l1, long l2, long l3, long l4) {
 final byte[] b = m.bytes;
 long l5 = 0;
 long l6 = 0;
 long l7 = 0;
 long l8 = 0;
 long l9 = 0;
 int l10 = 0;
 int l11 = 0;
 int l12 = 0;
 int l13 = 0;
 int l14 = 0;
 int l15 = 0;
 int l16 = 0;
 m.g0 = l5 = m.g0 - 96L;
 L1: {
  L2: {
   L3: {
    if ((l5 = l5) < 16L) { break L3; }
    l10 = b[((int) l2) - 58912] & 0xff;
    L4: {
     if (Core5.f174(m, l11 = b[((int) l2) - 58911] & 0xff, l12 = Words.get16(b, ((int) l2) - 58906) & 0xffff, l3, l4, Words.get64(b, ((int) l2) - 58904), Words.get64(b, ((int) l2) - 58896)) == 0) { break L4; }
     l13 = 1;
     break L1;
    }
    Words.put64(b, ((int) l5) - 58832, 0L);
    Words.put64(b, ((int) l5) - 58840, 0L);
    Words.put64(b, ((int) l5) - 58848, 0L);
    Words.put64(b, ((int) l5) - 58856, 0L);
    f131(m, l5 + 56L, l3, l4);
    if ((l11 & 255) + Integer.MIN_VALUE > -2147483647) { break L2; }
    l6 = Words.get64(b, ((int) l5) - 58848);
    l7 = Words.get64(b, ((int) l5) - 58856);
    if (Core5.f170(m, 85980L, 1L, 85984L, 1L, l0, l1) != 0) { break L2; }
    l2 = l7;
    l8 = l6;
    L5: {
     L6: while (true) {
      if (l8 == 0L) { break L5; }
      l13 = (l14 = (int) b[((int) l2) - 58912]) & 255;
      l9 = 1L;
      L7: {
       if (l14 > -1) { break L7; }
       l15 = (b[((int) l2) - 58911] & 0xff) & 63;
       L8: {
        if (l14 + Integer.MIN_VALUE > 2147483615) { break L8; }
        l13 = ((l13 << 6) & 1984) | l15;
        l9 = 2L;
        break L7;
       }
       l16 = (b[((int) l2) - 58910] & 0xff) & 63;
       L9: {
        if (l14 + Integer.MIN_VALUE > 2147483631) { break L9; }
        l13 = ((l15 << 6) | ((l13 << 12) & 61440)) | l16;
        l9 = 3L;
        break L7;
       }
       l13 = ((l16 << 6) | ((l15 << 12) | ((l13 << 18) & 1835008))) | ((b[((int) l2) - 58909] & 0xff) & 63);
       l9 = 4L;
      }
      L10: {
       if (l13 == 30334) { break L10; }
       l8 = l8 - l9;
       l2 = l2 + l9;
       if (l13 != 21313) { continue L6; }
      }
      break L6;
     }
     l13 = 1;
     break L1;
    }
    Words.put32(b, ((int) l5) - 58912, 0);
    L11: {
     L12: {
      L13: {
       L14: {
        if ((l2 = l6 + -1L) + Long.MIN_VALUE > -9223372036854775806L) { break L14; }
        L15: {
         switch ((int) l2) {
         case 1: break L14;
         case 2: break L15;
         default: break L11;
         }
        }
        if (Words.get32(b, State.far((int) (l2 = ((((l14 = (((b[((int) l7) - 58911] & 0xff) << 8) | (l13 = b[((int) l7) - 58912] & 0xff)) | ((b[((int) l7) - 58910] & 0xff) << 16)) & 0xffffffffL) * 953497L) >>> 22L) & 1016L), 66852)) != l14) { break L13; }
        if (((b[((int) (l2 + 66856L)) - 58912] & 0xff) & 255) == 2) { break L13; }
        l13 = 1;
        break L1;
       }
       if (l6 + Long.MIN_VALUE > -9223372036854775804L) { break L2; }
       if (l6 == 0L) { break L12; }
       l13 = b[((int) l7) - 58912] & 0xff;
      }
      if (((int) (byte) l13) > -1) { break L2; }
     }
     Core3.f113(m, l5, l7, l6);
     l13 = 1;
     if ((b[((int) l5) - 58912] & 0xff) != 1) { break L2; }
     if (((b[((int) l5) - 58909] & 0xff) & 1) != 0) { break L1; }
     break L2;
    }
    if ((((b[((int) l7) - 58912] & 0xff) + -58) & 255) + Integer.MIN_VALUE >= -2147483402) { break L2; }
    l13 = 1;
    break L1;
   }
   throw State.trap();
  }
  L16: {
   if ((l11 & 255) + Integer.MIN_VALUE > -2147483644) { break L16; }
   l13 = 1;
   if (Core5.f175(m, l0, l1) != 0) { break L1; }
   if (Core5.f170(m, 85988L, 2L, 85996L, 9L, l0, l1) != 0) { break L1; }
  }
  Words.put64(b, ((int) l5) - 58856, 0L);
  Words.put64(b, ((int) l5) - 58848, 0L);
  Words.put64(b, ((int) l5) - 58840, 0L);
  Words.put64(b, ((int) l5) - 58832, 0L);
  Words.put64(b, ((int) l5) - 58880, 0L);
  Words.put64(b, ((int) l5) - 58872, 0L);
  Words.put64(b, ((int) l5) - 58864, 0L);
  Words.put64(b, ((int) l5) - 58912, 0L);
  Words.put64(b, ((int) l5) - 58904, 0L);
  Words.put64(b, ((int) l5) - 58896, 0L);
  Words.put64(b, ((int) l5) - 58888, 0L);
  f131(m, l5 + 56L, l3, l4);
  f134(m, l5 + 32L, 3, Words.get64(b, ((int) l5) - 58840), Words.get64(b, ((int) l5) - 58832));
  L17: {
   if ((b[((int) l5) - 58880] & 0xff) != 1) { break L17; }
   f131(m, l5, Words.get64(b, ((int) l5) - 58872), Words.get64(b, ((int) l5) - 58864));
   if ((l10 & 255) != 0) { break L17; }
   if ((l11 & 255) != 15) { break L17; }
   if ((l12 & 65535) + Integer.MIN_VALUE > -2147483639) { break L17; }
   l2 = Words.get64(b, ((int) l5) - 58904);
   l9 = Words.get64(b, ((int) l5) - 58912);
   L18: {
    if (l1 == 0L) { break L18; }
    if (((int) b[((int) ((l8 = l0 + l1) + -1L)) - 58912]) > -1) { break L18; }
    l6 = -2L;
    L19: {
     if ((b[((int) (l8 + -2L)) - 58912] & 0xff) + Integer.MIN_VALUE > -2147483457) { break L19; }
     l6 = ((b[((int) (l8 + -3L)) - 58912] & 0xff) + Integer.MIN_VALUE > -2147483457) ? -3L : -4L;
    }
    if ((l13 = (int) b[((int) (l8 = (l0 + l6) + l1)) - 58912]) > -1) { break L18; }
    if (l13 + Integer.MIN_VALUE < 2147483616) { break L18; }
    l14 = l13 & 255;
    l11 = (b[((int) l8) - 58911] & 0xff) & 63;
    l10 = (b[((int) l8) - 58910] & 0xff) & 63;
    L20: {
     L21: {
      if (l13 + Integer.MIN_VALUE > 2147483631) { break L21; }
      l13 = ((l11 << 6) | ((l14 << 12) & 61440)) | l10;
      break L20;
     }
     l13 = ((l10 << 6) | ((l11 << 12) | ((l14 << 18) & 1835008))) | ((b[((int) l8) - 58909] & 0xff) & 63);
    }
    if (l13 == 21495) { break L17; }
    if (l13 == 26085) { break L17; }
    if (l13 == 34399) { break L17; }
   }
   Words.put32(b, ((int) l5) - 58820, 0);
   L22: {
    L23: {
     L24: {
      L25: {
       if ((l8 = l2 + -1L) + Long.MIN_VALUE > -9223372036854775806L) { break L25; }
       L26: {
        switch ((int) l8) {
        case 1: break L25;
        case 2: break L26;
        default: break L22;
        }
       }
       if (Words.get32(b, State.far((int) (l8 = ((((l14 = (((b[((int) l9) - 58911] & 0xff) << 8) | (l13 = b[((int) l9) - 58912] & 0xff)) | ((b[((int) l9) - 58910] & 0xff) << 16)) & 0xffffffffL) * 953497L) >>> 22L) & 1016L), 66852)) != l14) { break L24; }
       if (((b[((int) (l8 + 66856L)) - 58912] & 0xff) & 255) == 2) { break L24; }
       l13 = 1;
       break L1;
      }
      if (l2 + Long.MIN_VALUE > -9223372036854775804L) { break L17; }
      if (l2 == 0L) { break L23; }
      l13 = b[((int) l9) - 58912] & 0xff;
     }
     if (((int) (byte) l13) > -1) { break L17; }
    }
    Core3.f113(m, l5 + 92L, l9, l2);
    l13 = 1;
    if ((b[((int) l5) - 58820] & 0xff) != 1) { break L17; }
    if (((b[((int) l5) - 58817] & 0xff) & 1) != 0) { break L1; }
    break L17;
   }
   if ((((b[((int) l9) - 58912] & 0xff) + -58) & 255) + Integer.MIN_VALUE >= -2147483402) { break L17; }
   l13 = 1;
   break L1;
  }
  Words.put64(b, ((int) l5) - 58856, 0L);
  Words.put64(b, ((int) l5) - 58848, 0L);
  Words.put64(b, ((int) l5) - 58840, 0L);
  Words.put64(b, ((int) l5) - 58912, 0L);
  Words.put64(b, ((int) l5) - 58904, 0L);
  Words.put64(b, ((int) l5) - 58896, 0L);
  f138(m, l5 + 56L, 83504L, 1L, 83952L, 2L, l3, l4);
  l13 = 1;
  L27: {
   if ((b[((int) l5) - 58856] & 0xff) != 1) { break L27; }
   f138(m, l5, 83848L, 1L, 86076L, 3L, Words.get64(b, ((int) l5) - 58848), Words.get64(b, ((int) l5) - 58840));
   if ((b[((int) l5) - 58912] & 0xff) == 1) { break L1; }
  }
  L28: {
   if (l1 == 0L) { break L28; }
   if (((int) b[((int) ((l2 = l0 + l1) + -1L)) - 58912]) > -1) { break L28; }
   l9 = -2L;
   L29: {
    if ((b[((int) (l2 + -2L)) - 58912] & 0xff) + Integer.MIN_VALUE > -2147483457) { break L29; }
    l9 = ((b[((int) (l2 + -3L)) - 58912] & 0xff) + Integer.MIN_VALUE > -2147483457) ? -3L : -4L;
   }
   if ((l13 = (int) b[((int) (l2 = (l0 + l9) + l1)) - 58912]) > -1) { break L28; }
   if (l13 + Integer.MIN_VALUE < 2147483616) { break L28; }
   l14 = l13 & 255;
   l11 = (b[((int) l2) - 58911] & 0xff) & 63;
   l10 = (b[((int) l2) - 58910] & 0xff) & 63;
   L30: {
    L31: {
     if (l13 + Integer.MIN_VALUE > 2147483631) { break L31; }
     l14 = ((l11 << 6) | ((l14 << 12) & 61440)) | l10;
     break L30;
    }
    l14 = ((l10 << 6) | ((l11 << 12) | ((l14 << 18) & 1835008))) | ((b[((int) l2) - 58909] & 0xff) & 63);
   }
   l13 = 1;
   if (l14 == 9675) { break L1; }
   if (l14 == 9711) { break L1; }
  }
  l13 = Core5.f176(m, l0, l1);
 }
 m.g0 = l5 + 96L;
 return l13;
}

static void f122(State m, long l0, int l1, long l2, long l3, long l4) {
 final byte[] b = m.bytes;
 int l5 = 0;
 int l6 = 0;
 int l7 = 0;
 int l8 = 0;
 int l9 = 0;
 int l10 = 0;
 int l11 = 0;
 L1: {
  L2: {
   L3: {
    L4: {
     L5: {
      L6: {
       L7: {
        if (m.g0 < 16L) { break L7; }
        l5 = b[((int) l4) - 58910] & 0xff;
        l6 = b[((int) l4) - 58911] & 0xff;
        if ((((l7 = b[((int) l4) - 58912] & 0xff) + -13) & 255) + Integer.MIN_VALUE < -2147483404) { break L5; }
        L8: {
         if ((l1 & 255) == 1) { break L8; }
         l1 = 0;
         break L2;
        }
        if (l3 == 0L) { break L4; }
        l1 = (l8 = (int) b[((int) l2) - 58912]) & 255;
        l4 = 1L;
        L9: {
         if (l8 > -1) { break L9; }
         l9 = (b[((int) l2) - 58911] & 0xff) & 63;
         L10: {
          if (l8 + Integer.MIN_VALUE > 2147483615) { break L10; }
          l1 = ((l1 << 6) & 1984) | l9;
          l4 = 2L;
          break L9;
         }
         l10 = (b[((int) l2) - 58910] & 0xff) & 63;
         L11: {
          if (l8 + Integer.MIN_VALUE > 2147483631) { break L11; }
          l1 = ((l9 << 6) | ((l1 << 12) & 61440)) | l10;
          l4 = 3L;
          break L9;
         }
         l1 = ((l10 << 6) | ((l9 << 12) | ((l1 << 18) & 1835008))) | ((b[((int) l2) - 58909] & 0xff) & 63);
         l4 = 4L;
        }
        if (l3 == l4) { break L4; }
        l9 = (l8 = (int) b[((int) (l4 = l2 + l4)) - 58912]) & 255;
        L12: {
         if (l8 > -1) { break L12; }
         l10 = (b[((int) l4) - 58911] & 0xff) & 63;
         L13: {
          if (l8 + Integer.MIN_VALUE > 2147483615) { break L13; }
          l9 = ((l9 << 6) & 1984) | l10;
          break L12;
         }
         l11 = (b[((int) l4) - 58910] & 0xff) & 63;
         L14: {
          if (l8 + Integer.MIN_VALUE > 2147483631) { break L14; }
          l9 = ((l10 << 6) | ((l9 << 12) & 61440)) | l11;
          break L12;
         }
         l9 = ((l11 << 6) | ((l10 << 12) | ((l9 << 18) & 1835008))) | ((b[((int) l4) - 58909] & 0xff) & 63);
        }
        L15: {
         L16: {
          L17: {
           L18: {
            L19: {
             L20: {
              if (l1 > 24402) { break L20; }
              L21: {
               if (l1 > 20939) { break L21; }
               L22: {
                switch (l1 + -19978) {
                case 0: break L5;
                case 1: break L6;
                default: break L22;
                }
               }
               if (l1 == 20013) { break L17; }
               if (l1 != 20170) { break L4; }
               break L19;
              }
              L23: {
               switch (l1 + -21320) {
               case 0: break L16;
               case 1: break L4;
               case 2: break L15;
               default: break L23;
               }
              }
              if (l1 == 20940) { break L18; }
              if (l1 != 22812) { break L4; }
              break L15;
             }
             L24: {
              if (l1 > 27490) { break L24; }
              L25: {
               if (l1 > 26125) { break L25; }
               if (l1 == 24403) { break L19; }
               if (l1 != 26089) { break L4; }
               break L5;
              }
              if (l1 == 26126) { break L19; }
              if (l1 != 26152) { break L4; }
              break L19;
             }
             L26: {
              if (l1 > 28164) { break L26; }
              if (l1 == 27491) { break L17; }
              if (l1 == 28145) { break L15; }
              break L4;
             }
             if (l1 == 28165) { break L5; }
             if (l1 != 30070) { break L4; }
            }
            if (l9 == 26089) { break L5; }
            if (l9 != 26216) { break L4; }
            break L5;
           }
           l7 = ((l7 & 255) == 12) ? 0 : l7;
           break L5;
          }
          final int t27 = l7 | 12;
          final int t28 = l7;
          final int t29 = ((l7 & 255) + Integer.MIN_VALUE < -2147483645) ? 1 : 0;
          l7 = t29 != 0 ? t27 : t28;
          break L5;
         }
         if (l9 != 22812) { break L6; }
        }
        final int t30 = l7;
        final int t31 = l7 + 12;
        final int t32 = ((l7 & 255) + Integer.MIN_VALUE < -2147483643) ? 1 : 0;
        l7 = t32 != 0 ? t30 : t31;
        break L5;
       }
       throw State.trap();
      }
      final int t33 = l7 + 12;
      final int t34 = ((l7 & 255) == 12) ? 1 : 0;
      l7 = t34 != 0 ? 12 : t33;
     }
     l1 = 1;
     break L3;
    }
    l1 = ((l8 = l7 & 255) + Integer.MIN_VALUE > -2147483644) ? 1 : 0;
    if (l8 + Integer.MIN_VALUE < -2147483643) { break L2; }
    l7 = l7 + 12;
   }
   if ((l7 & 255) != 24) { break L1; }
   if (((l6 | l5) & 255) == 0) { break L1; }
  }
  l7 = 0;
 }
 b[((int) l0) - 58911] = (byte) l7;
 b[((int) l0) - 58912] = (byte) l1;
}

static int f123(State m, long l0, long l1, long l2) {
 final byte[] b = m.bytes;
 long l3 = 0;
 long l4 = 0;
 long l5 = 0;
 long l6 = 0;
 long l7 = 0;
 long l8 = 0;
 long l9 = 0;
 long l10 = 0;
 long l11 = 0;
 int l12 = 0;
 int l13 = 0;
 int l14 = 0;
 int l15 = 0;
 m.g0 = l3 = m.g0 - 64L;
 L1: {
  L2: {
   L3: {
    L4: {
     L5: {
      L6: {
       L7: {
        if ((l3 = l3) < 16L) { break L7; }
        L8: {
         if ((l12 = (b[((int) l2) - 58912] & 0xff) & 255) != 2) { break L8; }
         l12 = 1;
         break L1;
        }
        l4 = Words.get64(b, ((int) l2) - 58832);
        l5 = Words.get64(b, ((int) l2) - 58840);
        l6 = Words.get64(b, ((int) l2) - 58848);
        l7 = Words.get64(b, ((int) l2) - 58856);
        l8 = Words.get64(b, ((int) l2) - 58864);
        l9 = Words.get64(b, ((int) l2) - 58872);
        L9: {
         if (l12 != 1) { break L9; }
         if (l8 == 0L) { break L9; }
         l10 = 1L;
         l14 = l13 = (l12 = (int) b[((int) l9) - 58912]) & 255;
         L10: {
          if (l12 > -1) { break L10; }
          l14 = (b[((int) l9) - 58911] & 0xff) & 63;
          L11: {
           if (l12 + Integer.MIN_VALUE > 2147483615) { break L11; }
           l14 = ((l13 << 6) & 1984) | l14;
           l10 = 2L;
           break L10;
          }
          l15 = (b[((int) l9) - 58910] & 0xff) & 63;
          L12: {
           if (l12 + Integer.MIN_VALUE > 2147483631) { break L12; }
           l14 = ((l14 << 6) | ((l13 << 12) & 61440)) | l15;
           l10 = 3L;
           break L10;
          }
          l14 = ((l15 << 6) | ((l14 << 12) | ((l13 << 18) & 1835008))) | ((b[((int) l9) - 58909] & 0xff) & 63);
          l10 = 4L;
         }
         if (l8 != l10) { break L3; }
         L13: {
          L14: {
           if (l14 > 20107) { break L14; }
           if ((l15 = l14 + -19968) + Integer.MIN_VALUE <= -2147483612) { break L13; }
           break L5;
          }
          L15: {
           if (l14 > 22234) { break L15; }
           if ((l15 = l14 + -20841) + Integer.MIN_VALUE > -2147483644) { break L6; }
           if (((1 << l15) & 21) == 0) { break L6; }
           break L4;
          }
          if (l14 == 38646) { break L4; }
          if (l14 == 22235) { break L4; }
          break L3;
         }
         if (((1L << (l15 & 0xffffffffL)) & 68719477257L) == 0L) { break L5; }
         break L4;
        }
        if (l8 == 0L) { break L2; }
        l12 = l13 = b[((int) l9) - 58912] & 0xff;
        break L3;
       }
       throw State.trap();
      }
      switch (l14 + -20108) {
      case 0: case 8: break L4;
      default: break L3;
      }
     }
     if (l14 == 12295) { break L4; }
     if (l14 != 20061) { break L3; }
    }
    Core2.f63(m, l3 + 8L, l14);
    if (((b[((int) l3) - 58903] & 0xff) & 255) == 0) { break L3; }
    if (((b[((int) l3) - 58904] & 0xff) & 1) == 0) { break L3; }
    l12 = 1;
    break L1;
   }
   if (((int) (byte) l12) > -1) { break L2; }
   if ((l12 = l12 & 255) + Integer.MIN_VALUE < -2147483424) { break L2; }
   l14 = (b[((int) l9) - 58911] & 0xff) & 63;
   l15 = (b[((int) l9) - 58910] & 0xff) & 63;
   L16: {
    L17: {
     if (l12 + Integer.MIN_VALUE > -2147483409) { break L17; }
     l12 = ((l14 << 6) | ((l13 << 12) & 61440)) | l15;
     l10 = 3L;
     break L16;
    }
    l12 = ((l15 << 6) | ((l14 << 12) | ((l13 << 18) & 1835008))) | ((b[((int) l9) - 58909] & 0xff) & 63);
    l10 = 4L;
   }
   if (l12 != 19968) { break L2; }
   if (l8 != l10) { break L2; }
   if (l4 == 0L) { break L2; }
   L18: {
    L19: {
     if ((l12 = (int) b[((int) l5) - 58912]) <= -1) { break L19; }
     l10 = 1L;
     break L18;
    }
    L20: {
     if (l12 + Integer.MIN_VALUE >= 2147483616) { break L20; }
     l10 = 2L;
     break L18;
    }
    l10 = (l12 + Integer.MIN_VALUE < 2147483632) ? 3L : 4L;
   }
   if (l4 == l10) { break L2; }
   l14 = (l12 = (int) b[((int) (l11 = l5 + l10)) - 58912]) & 255;
   l5 = 1L;
   L21: {
    if (l12 > -1) { break L21; }
    l13 = (b[((int) l11) - 58911] & 0xff) & 63;
    L22: {
     if (l12 + Integer.MIN_VALUE > 2147483615) { break L22; }
     l14 = ((l14 << 6) & 1984) | l13;
     l5 = 2L;
     break L21;
    }
    l15 = (b[((int) l11) - 58910] & 0xff) & 63;
    L23: {
     if (l12 + Integer.MIN_VALUE > 2147483631) { break L23; }
     l14 = ((l13 << 6) | ((l14 << 12) & 61440)) | l15;
     l5 = 3L;
     break L21;
    }
    l14 = ((l15 << 6) | ((l13 << 12) | ((l14 << 18) & 1835008))) | ((b[((int) l11) - 58909] & 0xff) & 63);
    l5 = 4L;
   }
   if (l4 != (l5 + l10)) { break L2; }
   l12 = 1;
   if (l14 == 37666) { break L1; }
   if (l14 == 38065) { break L1; }
  }
  L24: {
   if (l1 == 0L) { break L24; }
   L25: {
    if ((l14 = (int) b[((int) (l0 + (l10 = l1 + -1L))) - 58912]) >= 0) { break L25; }
    l10 = -2L;
    L26: {
     if ((b[((int) ((l4 = l0 + l1) + -2L)) - 58912] & 0xff) + Integer.MIN_VALUE > -2147483457) { break L26; }
     l10 = ((b[((int) (l4 + -3L)) - 58912] & 0xff) + Integer.MIN_VALUE > -2147483457) ? -3L : -4L;
    }
    l14 = (l12 = (int) b[((int) (l4 = l0 + (l10 = l10 + l1))) - 58912]) & 255;
    if (l12 > -1) { break L25; }
    l13 = (b[((int) l4) - 58911] & 0xff) & 63;
    L27: {
     if (l12 + Integer.MIN_VALUE > 2147483615) { break L27; }
     l14 = ((l14 << 6) & 1984) | l13;
     break L25;
    }
    l15 = (b[((int) l4) - 58910] & 0xff) & 63;
    L28: {
     if (l12 + Integer.MIN_VALUE > 2147483631) { break L28; }
     l14 = ((l13 << 6) | ((l14 << 12) & 61440)) | l15;
     break L25;
    }
    l14 = ((l15 << 6) | ((l13 << 12) | ((l14 << 18) & 1835008))) | ((b[((int) l4) - 58909] & 0xff) & 63);
   }
   l12 = 1;
   L29: {
    if (l14 > 24064) { break L29; }
    if (l14 == 36) { break L1; }
    if (l14 == 163) { break L1; }
    if (l14 != 8364) { break L24; }
    break L1;
   }
   L30: {
    if (l14 == 24065) { break L30; }
    if (l14 == 65284) { break L1; }
    if (l14 != 24163) { break L24; }
   }
   if (Core5.f170(m, 85984L, 1L, 86092L, 1L, l0, l10) == 0) { break L1; }
  }
  L31: {
   L32: {
    if (Core5.f177(m, l9, l8, l7, l6) != 0) { break L32; }
    Words.put64(b, ((int) l3) - 58856, l6);
    Words.put64(b, ((int) l3) - 58864, l7);
    Words.put64(b, ((int) l3) - 58872, l8);
    Words.put64(b, ((int) l3) - 58880, l9);
    Words.put64(b, ((int) l3) - 58888, Words.get64(b, ((int) l2) - 58880));
    Words.put64(b, ((int) l3) - 58896, Words.get64(b, ((int) l2) - 58888));
    f126(m, l3, l3 + 16L);
    if ((b[((int) l3) - 58912] & 0xff) != 1) { break L31; }
    if (((1 << ((b[((int) l3) - 58911] & 0xff) & 255)) & 23) == 0) { break L31; }
   }
   l12 = 1;
   break L1;
  }
  l12 = Core5.f176(m, l0, l1);
 }
 m.g0 = l3 + 64L;
 return l12;
}

static void f124(State m, long l0, long l1) {
 final byte[] b = m.bytes;
 long l2 = 0;
 long l3 = 0;
 long l4 = 0;
 long l5 = 0;
 int l6 = 0;
 int l7 = 0;
 int l8 = 0;
 m.g0 = l2 = m.g0 - 144L;
 L1: {
  L2: {
   if ((l2 = l2) < 16L) { break L2; }
   l6 = b[((int) l1) - 58823] & 0xff;
   l7 = b[((int) l1) - 58824] & 0xff;
   l3 = Words.get64(b, ((int) l1) - 58864);
   l4 = Words.get64(b, ((int) l1) - 58872);
   l8 = b[((int) l1) - 58912] & 0xff;
   l5 = 0L;
   Words.put64(b, ((int) l2) - 58856, 0L);
   Words.put64(b, ((int) l2) - 58864, 0L);
   Words.put64(b, ((int) l2) - 58872, 0L);
   Words.put64(b, ((int) l2) - 58880, 0L);
   Words.put64(b, ((int) l2) - 58888, 0L);
   Words.put64(b, ((int) l2) - 58896, 0L);
   Words.put64(b, ((int) l2) - 58904, 0L);
   Words.put64(b, ((int) l2) - 58912, 0L);
   L3: {
    L4: {
     if (((l7 | l6) & 255) == 0) { break L4; }
     L5: {
      L6: {
       if ((l8 & 255) == 4) { break L6; }
       Words.put64(b, ((int) l2) - 58776, 0L);
       Words.put64(b, ((int) l2) - 58784, 0L);
       Words.put64(b, ((int) l2) - 58792, 0L);
       Words.put64(b, ((int) l2) - 58800, 0L);
       Words.put64(b, ((int) l2) - 58808, 0L);
       Words.put64(b, ((int) l2) - 58816, 0L);
       Words.put64(b, ((int) l2) - 58824, 0L);
       Words.put64(b, ((int) l2) - 58832, 0L);
       Core3.f80(m, l2 + 80L, l4, l3, 1);
       if ((b[((int) l2) - 58832] & 0xff) != 0) { break L5; }
       if ((b[((int) l2) - 58784] & 0xff) != 0) { break L5; }
       final int t7 = ((l3 = Words.get64(b, ((int) l2) - 58816)) + Long.MIN_VALUE > -9213372036854775809L) ? 1 : 0;
       final int t8 = ((l1 = Words.get64(b, ((int) l2) - 58808)) != 0L) ? 1 : 0;
       final int t9 = (l1 == 0L) ? 1 : 0;
       if ((t9 != 0 ? t7 : t8) != 0) { break L5; }
       l5 = l3 * 100L;
      }
      l1 = 0L;
      Words.put64(b, ((int) l2) - 58841, 0L);
      Words.put64(b, ((int) l2) - 58848, 0L);
      l3 = ((((l7 & 0xffffffffL) & 255L) * 10L) + ((l6 & 0xffffffffL) & 255L)) + l5;
      l4 = 100L;
      l6 = 1;
      l5 = 0L;
      l7 = 1;
      break L3;
     }
     Words.put64(b, ((int) l0) - 58856, 0L);
     Words.put64(b, ((int) l0) - 58864, 0L);
     Words.put64(b, ((int) l0) - 58872, 0L);
     Words.put64(b, ((int) l0) - 58880, 0L);
     Words.put64(b, ((int) l0) - 58888, 0L);
     Words.put64(b, ((int) l0) - 58896, 0L);
     Words.put64(b, ((int) l0) - 58904, 0L);
     Words.put64(b, ((int) l0) - 58912, 0L);
     break L1;
    }
    l6 = 1;
    Core3.f80(m, l2, l4, l3, 1);
    L10: {
     if ((b[((int) l2) - 58912] & 0xff) != 0) { break L10; }
     Words.put64(b, ((int) l2) - 58848, Words.get64(b, ((int) l2) - 58863));
     Words.put64(b, ((int) l2) - 58841, Words.get64(b, ((int) l2) - 58856));
     l5 = Words.get64(b, ((int) l2) - 58872);
     l4 = Words.get64(b, ((int) l2) - 58880);
     l7 = b[((int) l2) - 58864] & 0xff;
     l1 = Words.get64(b, ((int) l2) - 58888);
     l3 = Words.get64(b, ((int) l2) - 58896);
     break L3;
    }
    l5 = 0L;
    Words.put64(b, ((int) l2) - 58841, 0L);
    Words.put64(b, ((int) l2) - 58848, 0L);
    l6 = 0;
    l3 = 0L;
    l1 = 0L;
    l4 = 0L;
    l7 = 0;
   }
   Words.put64(b, ((int) l0) - 58904, 0L);
   Words.put64(b, ((int) (l0 + 40L)) - 58912, l5);
   Words.put64(b, ((int) (l0 + 32L)) - 58912, l4);
   Words.put64(b, ((int) (l0 + 24L)) - 58912, l1);
   Words.put64(b, ((int) (l0 + 16L)) - 58912, l3);
   Words.put64(b, ((int) l0) - 58912, l6 & 0xffffffffL);
   b[((int) (l0 + 48L)) - 58912] = (byte) l7;
   Words.put64(b, ((int) (l0 + 49L)) - 58912, Words.get64(b, ((int) l2) - 58848));
   Words.put64(b, ((int) (l0 + 56L)) - 58912, Words.get64(b, ((int) l2) - 58841));
   break L1;
  }
  throw State.trap();
 }
 m.g0 = l2 + 144L;
}

static int f125(State m, long l0) {
 final byte[] b = m.bytes;
 long l1 = 0;
 long l2 = 0;
 long l3 = 0;
 long l4 = 0;
 long l5 = 0;
 long l6 = 0;
 long l7 = 0;
 long l8 = 0;
 long l9 = 0;
 int l10 = 0;
 int l11 = 0;
 int l12 = 0;
 int l13 = 0;
 m.g0 = l1 = m.g0 - 96L;
 Words.put64(b, ((int) (l1 = l1)) - 58888, Words.get64(b, ((int) l0) - 58864));
 Words.put64(b, ((int) l1) - 58880, Words.get64(b, ((int) l0) - 58856));
 Words.put64(b, ((int) l1) - 58872, Words.get64(b, ((int) l0) - 58848));
 L1: {
  if (l1 < 16L) { break L1; }
  l2 = Words.get64(b, ((int) l0) - 58824);
  l3 = Words.get64(b, ((int) l0) - 58832);
  l4 = Words.get64(b, ((int) l0) - 58840);
  l5 = Words.get64(b, ((int) l0) - 58872);
  l6 = Words.get64(b, ((int) l0) - 58880);
  l7 = Words.get64(b, ((int) l0) - 58888);
  l8 = Words.get64(b, ((int) l0) - 58896);
  L2: {
   L3: {
    if ((l9 = Words.get64(b, ((int) l0) - 58816)) == 0L) { break L3; }
    if ((l10 = (int) b[((int) l2) - 58912]) > -1) { break L3; }
    if (l10 + Integer.MIN_VALUE < 2147483616) { break L3; }
    l11 = l10 & 255;
    l12 = (b[((int) l2) - 58911] & 0xff) & 63;
    l13 = (b[((int) l2) - 58910] & 0xff) & 63;
    L4: {
     L5: {
      if (l10 + Integer.MIN_VALUE > 2147483631) { break L5; }
      l11 = ((l12 << 6) | ((l11 << 12) & 61440)) | l13;
      break L4;
     }
     l11 = ((l13 << 6) | ((l12 << 12) | ((l11 << 18) & 1835008))) | ((b[((int) l2) - 58909] & 0xff) & 63);
    }
    l10 = 1;
    if (l11 == 25104) { break L2; }
    if (l11 == 25240) { break L2; }
   }
   L6: {
    L7: {
     if (Core5.f177(m, l8, l7, l6, l5) != 0) { break L7; }
     Words.put64(b, ((int) l1) - 58824, l5);
     Words.put64(b, ((int) l1) - 58832, l6);
     Words.put64(b, ((int) l1) - 58840, l7);
     Words.put64(b, ((int) l1) - 58848, l8);
     Words.put64(b, ((int) l1) - 58856, Words.get64(b, ((int) l0) - 58904));
     Words.put64(b, ((int) l1) - 58864, Words.get64(b, ((int) l0) - 58912));
     f126(m, l1 + 16L, l1 + 48L);
     l10 = 1;
     if ((b[((int) l1) - 58896] & 0xff) != 1) { break L6; }
     if (((1 << ((b[((int) l1) - 58895] & 0xff) & 255)) & 23) == 0) { break L6; }
    }
    l10 = 1;
    break L2;
   }
   if (Core5.f177(m, l4, l3, l2, l9) != 0) { break L2; }
   Words.put64(b, ((int) l1) - 58856, Words.get64(b, ((int) l1) - 58872));
   Words.put64(b, ((int) l1) - 58864, Words.get64(b, ((int) l1) - 58880));
   Words.put64(b, ((int) l1) - 58824, l9);
   Words.put64(b, ((int) l1) - 58832, l2);
   Words.put64(b, ((int) l1) - 58840, l3);
   Words.put64(b, ((int) l1) - 58848, l4);
   f126(m, l1 + 8L, l1 + 48L);
   l10 = 0;
   if ((b[((int) l1) - 58904] & 0xff) != 1) { break L2; }
   l10 = 23 >>> ((b[((int) l1) - 58903] & 0xff) & 63);
  }
  m.g0 = l1 + 96L;
  final int t8 = l10 & 1;
  return t8;
 }
 throw State.trap();
}

static int f126_1(State m, long l1, long l2, long l3, long l4, long l5, long l6, long l7, long l8, long l9, long l10, int l12, int l13, int l14, int l15, int l16, int l17, int l18) {
 final byte[] b = m.bytes;
 int exit = 0;
 PART: {
  L3: {
   L4: {
    L5: {
     if ((l2 = l2) < 16L) { break L5; }
     l3 = Words.get64(b, ((int) l1) - 58912);
     l4 = Words.get64(b, ((int) l1) - 58904);
     l5 = Words.get64(b, ((int) l1) - 58896);
     l6 = Words.get64(b, ((int) l1) - 58888);
     l7 = Words.get64(b, ((int) l1) - 58880);
     if ((l12 = ((l8 = Words.get64(b, ((int) l1) - 58872)) == 0L) ? 1 : 0) != 0) { break L3; }
     l1 = 1L;
     l15 = l14 = (l13 = (int) b[((int) l7) - 58912]) & 255;
     L6: {
      if (l13 > -1) { break L6; }
      l15 = (b[((int) l7) - 58911] & 0xff) & 63;
      L7: {
       if (l13 + Integer.MIN_VALUE > 2147483615) { break L7; }
       l15 = ((l14 << 6) & 1984) | l15;
       l1 = 2L;
       break L6;
      }
      l16 = (b[((int) l7) - 58910] & 0xff) & 63;
      L8: {
       if (l13 + Integer.MIN_VALUE > 2147483631) { break L8; }
       l15 = ((l15 << 6) | ((l14 << 12) & 61440)) | l16;
       l1 = 3L;
       break L6;
      }
      l15 = ((l16 << 6) | ((l15 << 12) | ((l14 << 18) & 1835008))) | ((b[((int) l7) - 58909] & 0xff) & 63);
      l1 = 4L;
     }
     L9: {
      L10: {
       L11: {
        L12: {
         L13: {
          if (l15 == 25240) { break L13; }
          l1 = l5;
          l9 = l6;
          if (l15 == 25104) { break L12; }
          l15 = Core5.f157(m, 86204L, 31L, 83848L, 1L, l7, l8);
          if (l13 > -1) { break L9; }
          if (l15 != 0) { break L9; }
          if (l13 + Integer.MIN_VALUE < 2147483616) { break L3; }
          l16 = (b[((int) l7) - 58911] & 0xff) & 63;
          l17 = (b[((int) l7) - 58910] & 0xff) & 63;
          if (l13 + Integer.MIN_VALUE > 2147483631) { break L11; }
          l15 = ((l16 << 6) | ((l14 << 12) & 61440)) | l17;
          break L10;
         }
         l13 = 1;
         l15 = 3;
         if (l8 == l1) { exit = 1; break PART; }
         if ((l14 = (int) b[((int) (l1 = l7 + l1)) - 58912]) > -1) { exit = 1; break PART; }
         if (l14 + Integer.MIN_VALUE < 2147483616) { exit = 1; break PART; }
         l16 = l14 & 255;
         l17 = (b[((int) l1) - 58911] & 0xff) & 63;
         l18 = (b[((int) l1) - 58910] & 0xff) & 63;
         L14: {
          L15: {
           if (l14 + Integer.MIN_VALUE > 2147483631) { break L15; }
           l14 = ((l17 << 6) | ((l16 << 12) & 61440)) | l18;
           break L14;
          }
          l14 = ((l18 << 6) | ((l17 << 12) | ((l16 << 18) & 1835008))) | ((b[((int) l1) - 58909] & 0xff) & 63);
         }
         L16: {
          if (l14 > 30951) { break L16; }
          L17: {
           if (l14 > 26086) { break L17; }
           if (l14 == 21472) { break L3; }
           if (l14 == 21512) { break L3; }
           exit = 1; break PART;
          }
          if (l14 == 26087) { break L3; }
          if (l14 == 30090) { break L3; }
          exit = 1; break PART;
         }
         L18: {
          if (l14 > 33289) { break L18; }
          if (l14 == 30952) { break L3; }
          if (l14 == 31639) { break L3; }
          exit = 1; break PART;
         }
         if (l14 == 33290) { break L3; }
         if (l14 == 36820) { break L3; }
         exit = 1; break PART;
        }
        L19: {
         L20: while (true) {
          if (l9 == 0L) { break L19; }
          l13 = (l15 = (int) b[((int) l1) - 58912]) & 255;
          l10 = 1L;
          L21: {
           if (l15 > -1) { break L21; }
           l14 = (b[((int) l1) - 58911] & 0xff) & 63;
           L22: {
            if (l15 + Integer.MIN_VALUE > 2147483615) { break L22; }
            l13 = ((l13 << 6) & 1984) | l14;
            l10 = 2L;
            break L21;
           }
           l16 = (b[((int) l1) - 58910] & 0xff) & 63;
           L23: {
            if (l15 + Integer.MIN_VALUE > 2147483631) { break L23; }
            l13 = ((l14 << 6) | ((l13 << 12) & 61440)) | l16;
            l10 = 3L;
            break L21;
           }
           l13 = ((l16 << 6) | ((l14 << 12) | ((l13 << 18) & 1835008))) | ((b[((int) l1) - 58909] & 0xff) & 63);
           l10 = 4L;
          }
          Core2.f63(m, l2 + 72L, l13);
          if ((l13 + -58) + Integer.MIN_VALUE > 2147483637) { break L3; }
          l9 = l9 - l10;
          l1 = l1 + l10;
          if (((b[((int) l2) - 58840] & 0xff) & 255) == 1) { continue L20; }
          break L3;
         }
        }
        l13 = 1;
        l15 = 3;
        if (l6 == 0L) { exit = 1; break PART; }
        L24: {
         L25: {
          if ((l14 = (int) b[((int) l5) - 58912]) <= -1) { break L25; }
          l1 = 1L;
          break L24;
         }
         L26: {
          if (l14 + Integer.MIN_VALUE >= 2147483616) { break L26; }
          l1 = 2L;
          break L24;
         }
         l1 = (l14 + Integer.MIN_VALUE < 2147483632) ? 3L : 4L;
        }
        if (l6 == l1) { exit = 1; break PART; }
        L27: {
         L28: {
          if ((l14 = (int) b[((int) (l5 + l1)) - 58912]) <= -1) { break L28; }
          l10 = 1L;
          break L27;
         }
         L29: {
          if (l14 + Integer.MIN_VALUE >= 2147483616) { break L29; }
          l10 = 2L;
          break L27;
         }
         l10 = (l14 + Integer.MIN_VALUE < 2147483632) ? 3L : 4L;
        }
        if (l6 != (l10 + l1)) { break L3; }
        exit = 1; break PART;
       }
       l15 = ((l17 << 6) | ((l16 << 12) | ((l14 << 18) & 1835008))) | ((b[((int) l7) - 58909] & 0xff) & 63);
      }
      L30: {
       L31: {
        if (l15 > 27626) { break L31; }
        if (l15 == 20811) { break L30; }
        if (l15 == 21400) { break L30; }
        break L4;
       }
       if (l15 == 27627) { break L30; }
       if (l15 == 37328) { break L30; }
       if (l15 != 31186) { break L4; }
      }
      if (Core5.f157(m, 86328L, 1L, 83844L, 1L, l5, l6) == 0) { break L4; }
      exit = 2; break PART;
     }
     if (l15 != 0) { exit = 2; break PART; }
     break L3;
    }
    throw State.trap();
   }
   L32: {
    L33: {
     if (l13 + Integer.MIN_VALUE > 2147483631) { break L33; }
     l13 = ((l16 << 6) | ((l14 << 12) & 61440)) | l17;
     l1 = 3L;
     break L32;
    }
    l13 = ((l17 << 6) | ((l16 << 12) | ((l14 << 18) & 1835008))) | ((b[((int) l7) - 58909] & 0xff) & 63);
    l1 = 4L;
   }
   if (l13 != 20998) { break L3; }
   if (Core5.f157(m, 84488L, 1L, 84972L, 2L, l7 + l1, l8 - l1) != 0) { exit = 2; break PART; }
  }
 }
 m.kept[0] = l1;
 m.kept[1] = l2;
 m.kept[2] = l3;
 m.kept[3] = l4;
 m.kept[4] = l5;
 m.kept[5] = l6;
 m.kept[6] = l7;
 m.kept[7] = l8;
 m.kept[8] = l9;
 m.kept[9] = l10;
 m.kept[10] = l12;
 m.kept[11] = l13;
 m.kept[12] = l14;
 m.kept[13] = l15;
 m.kept[14] = l16;
 m.kept[15] = l17;
 m.kept[16] = l18;
 return exit;
}

static int f126_2(State m, long l1, long l2, long l3, long l4, long l5, long l6, long l7, long l8, long l9, long l10, int l12, int l13, int l14, int l15, int l16, int l17, int l18, int l19, int l20, int l21) {
 final byte[] b = m.bytes;
 int exit = 0;
 PART: {
  L53: {
   L54: {
    L55: {
     L56: {
      L57: {
       L58: {
        L59: while (true) {
         if (l9 == 0L) { break L58; }
         l13 = (l15 = (int) b[((int) l1) - 58912]) & 255;
         l10 = 1L;
         L60: {
          if (l15 > -1) { break L60; }
          l14 = (b[((int) l1) - 58911] & 0xff) & 63;
          L61: {
           if (l15 + Integer.MIN_VALUE > 2147483615) { break L61; }
           l13 = ((l13 << 6) & 1984) | l14;
           l10 = 2L;
           break L60;
          }
          l16 = (b[((int) l1) - 58910] & 0xff) & 63;
          L62: {
           if (l15 + Integer.MIN_VALUE > 2147483631) { break L62; }
           l13 = ((l14 << 6) | ((l13 << 12) & 61440)) | l16;
           l10 = 3L;
           break L60;
          }
          l13 = ((l16 << 6) | ((l14 << 12) | ((l13 << 18) & 1835008))) | ((b[((int) l1) - 58909] & 0xff) & 63);
          l10 = 4L;
         }
         Core2.f63(m, l2 + 56L, l13);
         if ((l13 + -58) + Integer.MIN_VALUE > 2147483637) { break L57; }
         l9 = l9 - l10;
         l1 = l1 + l10;
         if (((b[((int) l2) - 58856] & 0xff) & 255) == 1) { continue L59; }
         break L57;
        }
       }
       if (l17 != 0) { break L57; }
       L63: {
        L64: {
         if ((l18 = (int) b[((int) l5) - 58912]) > -1) { break L64; }
         final long t65 = l6;
         final long t66 = (l18 + Integer.MIN_VALUE < 2147483632) ? 3L : 4L;
         final int t67 = (l18 + Integer.MIN_VALUE < 2147483616) ? 1 : 0;
         if (t65 == (l1 = t67 != 0 ? 2L : t66)) { break L57; }
         break L63;
        }
        l1 = 1L;
        if (l6 == 1L) { break L57; }
       }
       L68: {
        L69: {
         if ((l13 = (int) b[((int) (l9 = l5 + l1)) - 58912]) <= -1) { break L69; }
         l10 = 1L;
         break L68;
        }
        L70: {
         if (l13 + Integer.MIN_VALUE >= 2147483616) { break L70; }
         l10 = 2L;
         break L68;
        }
        l10 = (l13 + Integer.MIN_VALUE < 2147483632) ? 3L : 4L;
       }
       l19 = l18 & 255;
       L71: {
        if (l6 == (l1 = l10 + l1)) { break L71; }
        L72: {
         L73: {
          if ((l13 = (int) b[((int) (l9 + l10)) - 58912]) <= -1) { break L73; }
          l10 = 1L;
          break L72;
         }
         L74: {
          if (l13 + Integer.MIN_VALUE >= 2147483616) { break L74; }
          l10 = 2L;
          break L72;
         }
         l10 = (l13 + Integer.MIN_VALUE < 2147483632) ? 3L : 4L;
        }
        if (l6 == (l10 + l1)) { break L71; }
        l13 = l18;
        l9 = l6;
        l10 = l5;
        L75: while (true) {
         l15 = l13 & 255;
         l1 = 1L;
         L76: {
          if (((int) (byte) l13) > -1) { break L76; }
          l14 = (b[((int) l10) - 58911] & 0xff) & 63;
          L77: {
           if ((l13 & 255) + Integer.MIN_VALUE > -2147483425) { break L77; }
           l15 = ((l15 << 6) & 1984) | l14;
           l1 = 2L;
           break L76;
          }
          l16 = (b[((int) l10) - 58910] & 0xff) & 63;
          L78: {
           if ((l13 & 255) + Integer.MIN_VALUE > -2147483409) { break L78; }
           l15 = ((l14 << 6) | ((l15 << 12) & 61440)) | l16;
           l1 = 3L;
           break L76;
          }
          l15 = ((l16 << 6) | ((l14 << 12) | ((l15 << 18) & 1835008))) | ((b[((int) l10) - 58909] & 0xff) & 63);
          l1 = 4L;
         }
         Core2.f63(m, l2 + 48L, l15);
         L79: {
          if ((l9 = l9 - l1) == 0L) { break L79; }
          l15 = (l13 = (int) b[((int) (l10 = l10 + l1)) - 58912]) & 255;
          L80: {
           if (l13 > -1) { break L80; }
           l14 = (b[((int) l10) - 58911] & 0xff) & 63;
           L81: {
            if (l13 + Integer.MIN_VALUE > 2147483615) { break L81; }
            l15 = ((l15 << 6) & 1984) | l14;
            break L80;
           }
           l16 = (b[((int) l10) - 58910] & 0xff) & 63;
           L82: {
            if (l13 + Integer.MIN_VALUE > 2147483631) { break L82; }
            l15 = ((l14 << 6) | ((l15 << 12) & 61440)) | l16;
            break L80;
           }
           l15 = ((l16 << 6) | ((l14 << 12) | ((l15 << 18) & 1835008))) | ((b[((int) l10) - 58909] & 0xff) & 63);
          }
          l16 = b[((int) l2) - 58863] & 0xff;
          l14 = b[((int) l2) - 58864] & 0xff;
          Core2.f63(m, l2 + 40L, l15);
          if ((l14 & 1) == 0) { continue L75; }
          if (((b[((int) l2) - 58872] & 0xff) & 255) != 1) { continue L75; }
          if ((l16 & 255) + Integer.MIN_VALUE > ((b[((int) l2) - 58871] & 0xff) & 255) + Integer.MIN_VALUE) { break L57; }
          continue L75;
         }
         break L75;
        }
        if (l18 > -1) { break L71; }
        if (l18 + Integer.MIN_VALUE < 2147483616) { break L71; }
        l13 = (b[((int) l5) - 58911] & 0xff) & 63;
        l15 = (b[((int) l5) - 58910] & 0xff) & 63;
        L83: {
         L84: {
          if (l18 + Integer.MIN_VALUE > 2147483631) { break L84; }
          l13 = ((l13 << 6) | ((l19 << 12) & 61440)) | l15;
          break L83;
         }
         l13 = ((l15 << 6) | ((l13 << 12) | ((l19 << 18) & 1835008))) | ((b[((int) l5) - 58909] & 0xff) & 63);
        }
        if (l13 == 12295) { break L57; }
        if (l13 == 38646) { break L57; }
       }
       L85: {
        if (l12 != 0) { break L85; }
        if ((l14 = (int) b[((int) l7) - 58912]) > -1) { break L85; }
        if (l14 + Integer.MIN_VALUE < 2147483616) { break L85; }
        l16 = l14 & 255;
        l20 = (b[((int) l7) - 58911] & 0xff) & 63;
        l13 = (l21 = b[((int) l7) - 58910] & 0xff) & 63;
        L86: {
         L87: {
          if (l14 + Integer.MIN_VALUE > 2147483631) { break L87; }
          l15 = ((l20 << 6) | ((l16 << 12) & 61440)) | l13;
          break L86;
         }
         l15 = ((l13 << 6) | ((l20 << 12) | ((l16 << 18) & 1835008))) | ((b[((int) l7) - 58909] & 0xff) & 63);
        }
        L88: {
         if (l15 != 24180) { break L88; }
         if (Core5.f157(m, 83828L, 1L, 86584L, 2L, l7, l8) == 0) { break L56; }
        }
        L89: {
         L90: {
          if (l14 + Integer.MIN_VALUE > 2147483631) { break L90; }
          l13 = ((l20 << 6) | ((l16 << 12) & 61440)) | l13;
          break L89;
         }
         l13 = ((l13 << 6) | ((l20 << 12) | ((l16 << 18) & 1835008))) | ((b[((int) l7) - 58909] & 0xff) & 63);
        }
        L91: {
         if (l13 > 25150) { break L91; }
         if (l13 == 21150) { break L56; }
         if (l13 == 21495) { break L56; }
         if (l13 != 23460) { break L85; }
         break L56;
        }
        if (l13 == 25151) { break L56; }
        if (l13 == 34399) { break L56; }
        if (l13 == 36774) { break L56; }
       }
       L92: {
        if ((l13 = (l4 == 0L) ? 1 : 0) != 0) { break L92; }
        if (((int) b[((int) ((l1 = l3 + l4) + -1L)) - 58912]) > -1) { break L92; }
        l10 = -2L;
        L93: {
         if ((b[((int) (l1 + -2L)) - 58912] & 0xff) + Integer.MIN_VALUE > -2147483457) { break L93; }
         l10 = ((b[((int) (l1 + -3L)) - 58912] & 0xff) + Integer.MIN_VALUE > -2147483457) ? -3L : -4L;
        }
        if ((l15 = (int) b[((int) (l1 = (l3 + l10) + l4)) - 58912]) > -1) { break L92; }
        if (l15 + Integer.MIN_VALUE < 2147483616) { break L92; }
        l14 = l15 & 255;
        l16 = (b[((int) l1) - 58911] & 0xff) & 63;
        l20 = (b[((int) l1) - 58910] & 0xff) & 63;
        L94: {
         L95: {
          if (l15 + Integer.MIN_VALUE > 2147483631) { break L95; }
          l15 = ((l16 << 6) | ((l14 << 12) & 61440)) | l20;
          break L94;
         }
         l15 = ((l20 << 6) | ((l16 << 12) | ((l14 << 18) & 1835008))) | ((b[((int) l1) - 58909] & 0xff) & 63);
        }
        L96: {
         if (l15 > 27003) { break L96; }
         L97: {
          if (l15 > 24230) { break L97; }
          if (l15 == 21495) { break L57; }
          if (l15 == 24162) { break L57; }
          break L92;
         }
         if (l15 == 24231) { break L57; }
         if (l15 == 26635) { break L57; }
         if (l15 == 26847) { break L57; }
         break L92;
        }
        L98: {
         if (l15 > 30720) { break L98; }
         if (l15 == 27004) { break L57; }
         if (l15 == 27155) { break L57; }
         break L92;
        }
        if (l15 == 30721) { break L57; }
        if (l15 == 30908) { break L57; }
        if (l15 == 34399) { break L57; }
       }
       l15 = 1;
       if (l18 > -1) { exit = 1; break PART; }
       if (l18 + Integer.MIN_VALUE < 2147483616) { exit = 1; break PART; }
       l14 = (b[((int) l5) - 58911] & 0xff) & 63;
       l16 = (b[((int) l5) - 58910] & 0xff) & 63;
       L99: {
        L100: {
         if (l18 + Integer.MIN_VALUE > 2147483631) { break L100; }
         l14 = ((l14 << 6) | ((l19 << 12) & 61440)) | l16;
         break L99;
        }
        l14 = ((l16 << 6) | ((l14 << 12) | ((l19 << 18) & 1835008))) | ((b[((int) l5) - 58909] & 0xff) & 63);
       }
       L101: {
        if (l14 == 38646) { break L101; }
        if (l14 != 12295) { exit = 1; break PART; }
       }
       if (l13 != 0) { exit = 1; break PART; }
       if (((int) b[((int) ((l1 = l3 + l4) + -1L)) - 58912]) > -1) { exit = 1; break PART; }
       l10 = -2L;
       L102: {
        if ((b[((int) (l1 + -2L)) - 58912] & 0xff) + Integer.MIN_VALUE > -2147483457) { break L102; }
        l10 = ((b[((int) (l1 + -3L)) - 58912] & 0xff) + Integer.MIN_VALUE > -2147483457) ? -3L : -4L;
       }
       if ((l13 = (int) b[((int) (l1 = (l3 + l10) + l4)) - 58912]) > -1) { exit = 1; break PART; }
       if (l13 + Integer.MIN_VALUE < 2147483616) { exit = 1; break PART; }
       l14 = l13 & 255;
       l16 = (b[((int) l1) - 58911] & 0xff) & 63;
       l18 = (b[((int) l1) - 58910] & 0xff) & 63;
       L103: {
        L104: {
         if (l13 + Integer.MIN_VALUE > 2147483631) { break L104; }
         l13 = ((l16 << 6) | ((l14 << 12) & 61440)) | l18;
         break L103;
        }
        l13 = ((l18 << 6) | ((l16 << 12) | ((l14 << 18) & 1835008))) | ((b[((int) l1) - 58909] & 0xff) & 63);
       }
       L105: {
        L106: {
         if (l13 > 26177) { break L106; }
         if (l13 == 20998) { break L105; }
         if (l13 == 26102) { break L105; }
         exit = 1; break PART;
        }
        if (l13 == 26178) { break L105; }
        if (l13 == 40670) { break L105; }
        if (l13 != 28857) { exit = 1; break PART; }
       }
       if (l12 != 0) { exit = 1; break PART; }
       if ((l14 = (int) b[((int) l7) - 58912]) > -1) { exit = 1; break PART; }
       if (l14 + Integer.MIN_VALUE < 2147483616) { exit = 1; break PART; }
       l16 = l14 & 255;
       l20 = (b[((int) l7) - 58911] & 0xff) & 63;
       l13 = (l21 = b[((int) l7) - 58910] & 0xff) & 63;
       L107: {
        L108: {
         if (l14 + Integer.MIN_VALUE > 2147483631) { break L108; }
         l18 = ((l20 << 6) | ((l16 << 12) & 61440)) | l13;
         break L107;
        }
        l18 = ((l13 << 6) | ((l20 << 12) | ((l16 << 18) & 1835008))) | ((b[((int) l7) - 58909] & 0xff) & 63);
       }
       if (l18 == 20998) { break L56; }
       l13 = 1;
       if (l18 == 31186) { break L56; }
       exit = 2; break PART;
      }
      if (l12 != 0) { exit = 3; break PART; }
      l16 = (l14 = (int) b[((int) l7) - 58912]) & 255;
      L109: {
       if (l14 <= -1) { break L109; }
       l1 = 1L;
       l15 = 1;
       l13 = l16;
       break L53;
      }
      l20 = (b[((int) l7) - 58911] & 0xff) & 63;
      if (l14 + Integer.MIN_VALUE < 2147483616) { break L55; }
      l21 = b[((int) l7) - 58910] & 0xff;
     }
     l13 = l21 & 63;
     L110: {
      if (l14 + Integer.MIN_VALUE > 2147483631) { break L110; }
      l13 = (((l16 << 12) & 61440) | (l20 << 6)) | l13;
      l1 = 3L;
      break L54;
     }
     l13 = ((l13 << 6) | (((l16 << 18) & 1835008) | (l20 << 12))) | ((b[((int) l7) - 58909] & 0xff) & 63);
     l1 = 4L;
     break L54;
    }
    l13 = ((l16 << 6) & 1984) | l20;
    l1 = 2L;
   }
   l15 = 0;
  }
 }
 m.kept[0] = l1;
 m.kept[1] = l9;
 m.kept[2] = l10;
 m.kept[3] = l13;
 m.kept[4] = l14;
 m.kept[5] = l15;
 m.kept[6] = l16;
 m.kept[7] = l18;
 m.kept[8] = l19;
 m.kept[9] = l20;
 m.kept[10] = l21;
 return exit;
}

static int f126_3(State m, long l1, long l2, long l3, long l4, long l5, long l6, long l7, long l8, long l9, long l10, long l11, int l12, int l13, int l14, int l15, int l16, int l17, int l18, int l20, int l21) {
 final byte[] b = m.bytes;
 int exit = 0;
 PART: {
  L153: {
   L154: {
    L155: {
     L156: {
      if (l17 != 0) { break L156; }
      l13 = (l15 = (int) b[((int) l5) - 58912]) & 255;
      l1 = 1L;
      L157: {
       if (l15 > -1) { break L157; }
       l14 = (b[((int) l5) - 58911] & 0xff) & 63;
       L158: {
        if (l15 + Integer.MIN_VALUE > 2147483615) { break L158; }
        l13 = ((l13 << 6) & 1984) | l14;
        l1 = 2L;
        break L157;
       }
       l16 = (b[((int) l5) - 58910] & 0xff) & 63;
       L159: {
        if (l15 + Integer.MIN_VALUE > 2147483631) { break L159; }
        l13 = ((l14 << 6) | ((l13 << 12) & 61440)) | l16;
        l1 = 3L;
        break L157;
       }
       l13 = ((l16 << 6) | ((l14 << 12) | ((l13 << 18) & 1835008))) | ((b[((int) l5) - 58909] & 0xff) & 63);
       l1 = 4L;
      }
      L160: {
       if (l6 == l1) { break L160; }
       l9 = 1L;
       l14 = l16 = (l15 = (int) b[((int) (l10 = l5 + l1)) - 58912]) & 255;
       L161: {
        L162: {
         L163: {
          L164: {
           L165: {
            L166: {
             L167: {
              if (l15 > -1) { break L167; }
              l14 = (b[((int) l10) - 58911] & 0xff) & 63;
              L168: {
               L169: {
                if (l15 + Integer.MIN_VALUE < 2147483616) { break L169; }
                l20 = (b[((int) l10) - 58910] & 0xff) & 63;
                L170: {
                 L171: {
                  if (l15 + Integer.MIN_VALUE > 2147483631) { break L171; }
                  l17 = ((l14 << 6) | ((l16 << 12) & 61440)) | l20;
                  break L170;
                 }
                 l17 = ((l20 << 6) | ((l14 << 12) | ((l16 << 18) & 1835008))) | ((b[((int) l10) - 58909] & 0xff) & 63);
                }
                L172: {
                 if (l17 == 40670) { break L172; }
                 if (l17 != 28857) { break L168; }
                }
                Core2.f63(m, l2 + 24L, l13);
                if ((l13 + -58) + Integer.MIN_VALUE > 2147483637) { break L166; }
                if (((b[((int) l2) - 58888] & 0xff) & 255) != 1) { break L166; }
                if ((l13 != 12295) & (l13 != 38646)) { break L161; }
                if (l13 == 21313) { break L161; }
                break L160;
               }
               l14 = ((l16 << 6) & 1984) | l14;
               l9 = 2L;
               break L167;
              }
              L173: {
               if (l15 + Integer.MIN_VALUE > 2147483631) { break L173; }
               l14 = ((l14 << 6) | ((l16 << 12) & 61440)) | l20;
               l9 = 3L;
               break L167;
              }
              l14 = ((l20 << 6) | ((l14 << 12) | ((l16 << 18) & 1835008))) | ((b[((int) l10) - 58909] & 0xff) & 63);
              l9 = 4L;
             }
             l1 = l6 - l1;
             L174: {
              if (l13 > 20840) { break L174; }
              if (l13 == 20004) { break L165; }
              if (l13 != 20108) { break L160; }
              break L165;
             }
             if (l13 == 20841) { break L165; }
             if (l13 != 21313) { break L160; }
             Core2.f63(m, l2 + 16L, l14);
             if ((l14 + -58) + Integer.MIN_VALUE > 2147483637) { break L160; }
             if (((b[((int) l2) - 58896] & 0xff) & 255) != 1) { break L160; }
             if (l14 == 12295) { break L160; }
             if (l14 == 38646) { break L160; }
             if (l1 == l9) { break L160; }
             break L164;
            }
            if (l13 != 21313) { break L160; }
            break L161;
           }
           if (l1 == l9) { break L163; }
           if (l14 != 21313) { break L163; }
          }
          if ((l14 = (int) b[((int) (l9 = l10 + l9)) - 58912]) > -1) { break L163; }
          if (l14 + Integer.MIN_VALUE < 2147483616) { break L163; }
          l17 = l14 & 255;
          l20 = (b[((int) l9) - 58911] & 0xff) & 63;
          l21 = (b[((int) l9) - 58910] & 0xff) & 63;
          L175: {
           L176: {
            if (l14 + Integer.MIN_VALUE > 2147483631) { break L176; }
            l14 = ((l20 << 6) | ((l17 << 12) & 61440)) | l21;
            break L175;
           }
           l14 = ((l21 << 6) | ((l20 << 12) | ((l17 << 18) & 1835008))) | ((b[((int) l9) - 58909] & 0xff) & 63);
          }
          if (l14 == 28857) { break L161; }
          if (l14 == 40670) { break L161; }
          if (l13 != 20108) { break L160; }
          if (l15 > -1) { break L160; }
          break L162;
         }
         if (l13 != 20108) { break L160; }
         if (l15 > -1) { break L160; }
        }
        if (l15 + Integer.MIN_VALUE < 2147483616) { break L160; }
        l13 = (b[((int) l10) - 58911] & 0xff) & 63;
        l14 = (b[((int) l10) - 58910] & 0xff) & 63;
        L177: {
         L178: {
          if (l15 + Integer.MIN_VALUE > 2147483631) { break L178; }
          l13 = ((l13 << 6) | ((l16 << 12) & 61440)) | l14;
          l9 = 3L;
          break L177;
         }
         l13 = ((l14 << 6) | ((l13 << 12) | ((l16 << 18) & 1835008))) | ((b[((int) l10) - 58909] & 0xff) & 63);
         l9 = 4L;
        }
        if (l13 != 21313) { break L160; }
        if (Core5.f157(m, 86592L, 4L, 83836L, 2L, l10 + l9, l1 - l9) == 0) { break L160; }
       }
       L179: {
        if (l18 != 0) { break L179; }
        if (((int) b[((int) ((l1 = l3 + l4) + -1L)) - 58912]) > -1) { break L179; }
        l10 = -2L;
        L180: {
         if ((b[((int) (l1 + -2L)) - 58912] & 0xff) + Integer.MIN_VALUE > -2147483457) { break L180; }
         l10 = ((b[((int) (l1 + -3L)) - 58912] & 0xff) + Integer.MIN_VALUE > -2147483457) ? -3L : -4L;
        }
        if ((l13 = (int) b[((int) (l1 = (l3 + l10) + l4)) - 58912]) > -1) { break L179; }
        if (l13 + Integer.MIN_VALUE < 2147483616) { break L179; }
        l15 = l13 & 255;
        l14 = (b[((int) l1) - 58911] & 0xff) & 63;
        l16 = (b[((int) l1) - 58910] & 0xff) & 63;
        L181: {
         L182: {
          if (l13 + Integer.MIN_VALUE > 2147483631) { break L182; }
          l14 = ((l14 << 6) | ((l15 << 12) & 61440)) | l16;
          break L181;
         }
         l14 = ((l16 << 6) | ((l14 << 12) | ((l15 << 18) & 1835008))) | ((b[((int) l1) - 58909] & 0xff) & 63);
        }
        l15 = 4;
        L183: {
         if (l14 > 26201) { break L183; }
         if (l14 == 21320) { exit = 1; break PART; }
         if (l14 == 22812) { exit = 1; break PART; }
         if (l14 == 26089) { exit = 1; break PART; }
         break L179;
        }
        l13 = 1;
        switch (l14 + -26202) {
        case 0: case 14: exit = 2; break PART;
        default: break L179;
        }
       }
       if (Core5.f170(m, 84168L, 1L, 84160L, 2L, l3, l4) == 0) { break L160; }
       l15 = 4;
       l13 = 1;
       exit = 2; break PART;
      }
      L184: {
       if ((l13 = (int) b[((int) (l5 + (l1 = l6 + -1L))) - 58912]) >= 0) { break L184; }
       l1 = -2L;
       L185: {
        if ((b[((int) ((l10 = l5 + l6) + -2L)) - 58912] & 0xff) + Integer.MIN_VALUE > -2147483457) { break L185; }
        l1 = ((b[((int) (l10 + -3L)) - 58912] & 0xff) + Integer.MIN_VALUE > -2147483457) ? -3L : -4L;
       }
       l13 = (l15 = (int) b[((int) (l10 = l5 + (l1 = l1 + l6))) - 58912]) & 255;
       if (l15 > -1) { break L184; }
       l14 = (b[((int) l10) - 58911] & 0xff) & 63;
       L186: {
        if (l15 + Integer.MIN_VALUE > 2147483615) { break L186; }
        l13 = ((l13 << 6) & 1984) | l14;
        break L184;
       }
       l16 = (b[((int) l10) - 58910] & 0xff) & 63;
       L187: {
        if (l15 + Integer.MIN_VALUE > 2147483631) { break L187; }
        l13 = ((l14 << 6) | ((l13 << 12) & 61440)) | l16;
        break L184;
       }
       l13 = ((l16 << 6) | ((l14 << 12) | ((l13 << 18) & 1835008))) | ((b[((int) l10) - 58909] & 0xff) & 63);
      }
      Core2.f63(m, l2 + 8L, l13);
      if ((l13 + -58) + Integer.MIN_VALUE > 2147483637) { break L156; }
      if (((b[((int) l2) - 58904] & 0xff) & 255) != 1) { break L156; }
      if (l13 == 12295) { break L156; }
      if (l13 == 38646) { break L156; }
      if (l1 == 0L) { break L156; }
      L188: {
       if ((l13 = (int) b[((int) (l5 + (l10 = l1 + -1L))) - 58912]) >= 0) { break L188; }
       l10 = -2L;
       L189: {
        if ((b[((int) ((l9 = l5 + l1) + -2L)) - 58912] & 0xff) + Integer.MIN_VALUE > -2147483457) { break L189; }
        l10 = ((b[((int) (l9 + -3L)) - 58912] & 0xff) + Integer.MIN_VALUE > -2147483457) ? -3L : -4L;
       }
       l13 = (l15 = (int) b[((int) (l1 = l5 + (l10 = l10 + l1))) - 58912]) & 255;
       if (l15 > -1) { break L188; }
       l14 = (b[((int) l1) - 58911] & 0xff) & 63;
       L190: {
        if (l15 + Integer.MIN_VALUE > 2147483615) { break L190; }
        l13 = ((l13 << 6) & 1984) | l14;
        break L188;
       }
       l16 = (b[((int) l1) - 58910] & 0xff) & 63;
       L191: {
        if (l15 + Integer.MIN_VALUE > 2147483631) { break L191; }
        l13 = ((l14 << 6) | ((l13 << 12) & 61440)) | l16;
        break L188;
       }
       l13 = ((l16 << 6) | ((l14 << 12) | ((l13 << 18) & 1835008))) | ((b[((int) l1) - 58909] & 0xff) & 63);
      }
      L192: {
       if (l13 == 38646) { break L192; }
       if (l13 != 12295) { break L156; }
      }
      if (Core5.f179(m, l5, l10) == 0) { break L156; }
      l13 = 1;
      l15 = 4;
      if (l12 != 0) { exit = 2; break PART; }
      if ((l14 = (int) b[((int) l7) - 58912]) > -1) { exit = 2; break PART; }
      if (l14 + Integer.MIN_VALUE < 2147483616) { exit = 2; break PART; }
      l12 = l14 & 255;
      l16 = (b[((int) l7) - 58911] & 0xff) & 63;
      l17 = (b[((int) l7) - 58910] & 0xff) & 63;
      L193: {
       L194: {
        if (l14 + Integer.MIN_VALUE > 2147483631) { break L194; }
        l14 = ((l16 << 6) | ((l12 << 12) & 61440)) | l17;
        break L193;
       }
       l14 = ((l17 << 6) | ((l16 << 12) | ((l12 << 18) & 1835008))) | ((b[((int) l7) - 58909] & 0xff) & 63);
      }
      L195: {
       if (l14 > 21543) { break L195; }
       L196: {
        switch (l14 + -20803) {
        case 0: case 8: break L155;
        case 1: case 2: case 3: case 4: case 5: case 6: case 7: exit = 2; break PART;
        default: break L196;
        }
       }
       if (l14 == 20493) { break L155; }
       if (l14 == 21319) { break L155; }
       exit = 2; break PART;
      }
      L197: {
       if (l14 > 24229) { break L197; }
       if (l14 == 21544) { break L155; }
       if (l14 == 22136) { break L155; }
       exit = 2; break PART;
      }
      if (l14 == 24230) { break L155; }
      if (l14 == 31859) { break L155; }
      exit = 2; break PART;
     }
     if (l12 != 0) { break L154; }
    }
    l12 = (l13 = (int) b[((int) l7) - 58912]) & 255;
    l10 = 1L;
    L198: {
     if (l13 > -1) { break L198; }
     l15 = (b[((int) l7) - 58911] & 0xff) & 63;
     L199: {
      if (l13 + Integer.MIN_VALUE > 2147483615) { break L199; }
      l12 = ((l12 << 6) & 1984) | l15;
      l10 = 2L;
      break L198;
     }
     l14 = (b[((int) l7) - 58910] & 0xff) & 63;
     L200: {
      if (l13 + Integer.MIN_VALUE > 2147483631) { break L200; }
      l12 = ((l15 << 6) | ((l12 << 12) & 61440)) | l14;
      l10 = 3L;
      break L198;
     }
     l12 = ((l14 << 6) | ((l15 << 12) | ((l12 << 18) & 1835008))) | ((b[((int) l7) - 58909] & 0xff) & 63);
     l10 = 4L;
    }
    L201: {
     L202: {
      if (l12 > 12315) { break L202; }
      L203: {
       if (l12 > 8210) { break L203; }
       if (l12 == 45) { break L201; }
       if (l12 != 126) { break L154; }
       break L201;
      }
      if ((l12 + -8211) + Integer.MIN_VALUE < -2147483646) { break L201; }
      if (l12 != 12289) { break L154; }
      break L201;
     }
     L204: {
      if (l12 > 33266) { break L204; }
      if (l12 == 12316) { break L201; }
      if (l12 == 21040) { break L201; }
      break L154;
     }
     if (l12 == 33267) { break L201; }
     if (l12 == 65374) { break L201; }
     if (l12 != 65293) { break L154; }
    }
    l1 = l11 = l7 + l10;
    l9 = l8 = l8 - l10;
    L205: {
     L206: while (true) {
      if ((l7 = l9) == 0L) { break L205; }
      l13 = (l15 = (int) b[((int) l1) - 58912]) & 255;
      l10 = 1L;
      L207: {
       if (l15 > -1) { break L207; }
       l14 = (b[((int) l1) - 58911] & 0xff) & 63;
       L208: {
        if (l15 + Integer.MIN_VALUE > 2147483615) { break L208; }
        l13 = ((l13 << 6) & 1984) | l14;
        l10 = 2L;
        break L207;
       }
       l16 = (b[((int) l1) - 58910] & 0xff) & 63;
       L209: {
        if (l15 + Integer.MIN_VALUE > 2147483631) { break L209; }
        l13 = ((l14 << 6) | ((l13 << 12) & 61440)) | l16;
        l10 = 3L;
        break L207;
       }
       l13 = ((l16 << 6) | ((l14 << 12) | ((l13 << 18) & 1835008))) | ((b[((int) l1) - 58909] & 0xff) & 63);
       l10 = 4L;
      }
      l9 = l7 - l10;
      l1 = l1 + l10;
      if (Core5.f181(m, l13) != 0) { continue L206; }
      break L206;
     }
    }
    l15 = ((l13 = Core6.f182(m, l12, l5, l6, l11, l8 - l7)) != 0) ? 5 : 0;
    if (l18 != 0) { exit = 2; break PART; }
    if (l13 != 0) { exit = 2; break PART; }
    break L153;
   }
   if (l18 == 0) { break L153; }
   l13 = 0;
   l15 = 0;
   exit = 2; break PART;
  }
 }
 m.kept[0] = l1;
 m.kept[1] = l7;
 m.kept[2] = l8;
 m.kept[3] = l9;
 m.kept[4] = l10;
 m.kept[5] = l11;
 m.kept[6] = l12;
 m.kept[7] = l13;
 m.kept[8] = l14;
 m.kept[9] = l15;
 m.kept[10] = l16;
 m.kept[11] = l17;
 m.kept[12] = l20;
 m.kept[13] = l21;
 return exit;
}

static void f126(State m, long l0, long l1) {
 final byte[] b = m.bytes;
 long l2 = 0;
 long l3 = 0;
 long l4 = 0;
 long l5 = 0;
 long l6 = 0;
 long l7 = 0;
 long l8 = 0;
 long l9 = 0;
 long l10 = 0;
 long l11 = 0;
 int l12 = 0;
 int l13 = 0;
 int l14 = 0;
 int l15 = 0;
 int l16 = 0;
 int l17 = 0;
 int l18 = 0;
 int l19 = 0;
 int l20 = 0;
 int l21 = 0;
 m.g0 = l2 = m.g0 - 80L;
 L1: {
  L2: {
   final int x34 = f126_1(m, l1, l2, l3, l4, l5, l6, l7, l8, l9, l10, l12, l13, l14, l15, l16, l17, l18);
   l1 = m.kept[0];
   l2 = m.kept[1];
   l3 = m.kept[2];
   l4 = m.kept[3];
   l5 = m.kept[4];
   l6 = m.kept[5];
   l7 = m.kept[6];
   l8 = m.kept[7];
   l9 = m.kept[8];
   l10 = m.kept[9];
   l12 = (int) m.kept[10];
   l13 = (int) m.kept[11];
   l14 = (int) m.kept[12];
   l15 = (int) m.kept[13];
   l16 = (int) m.kept[14];
   l17 = (int) m.kept[15];
   l18 = (int) m.kept[16];
   switch (x34) {
   case 1: break L1;
   case 2: break L2;
   }
   L35: {
    if (Core5.f177(m, l5, l6, l7, l8) == 0) { break L35; }
    l15 = 3;
    l13 = 1;
    break L1;
   }
   L36: {
    if (Core5.f180(m, l3, l4, l5, l6, l7, l8) == 0) { break L36; }
    l15 = 0;
    l13 = 1;
    break L1;
   }
   L37: {
    if ((l17 = (l6 == 0L) ? 1 : 0) != 0) { break L37; }
    l10 = l6;
    l1 = l5;
    L38: while (true) {
     L39: {
      L40: {
       L41: {
        L42: {
         if ((l13 = (int) b[((int) l1) - 58912]) <= -1) { break L42; }
         l9 = 1L;
         break L41;
        }
        if (l13 + Integer.MIN_VALUE >= 2147483616) { break L40; }
        l9 = 2L;
       }
       l10 = l10 - l9;
       l1 = l1 + l9;
       break L39;
      }
      l15 = l13 & 255;
      l14 = (b[((int) l1) - 58911] & 0xff) & 63;
      l16 = (b[((int) l1) - 58910] & 0xff) & 63;
      L43: {
       L44: {
        if (l13 + Integer.MIN_VALUE > 2147483631) { break L44; }
        l13 = ((l14 << 6) | ((l15 << 12) & 61440)) | l16;
        l9 = 3L;
        break L43;
       }
       l13 = ((l16 << 6) | ((l14 << 12) | ((l15 << 18) & 1835008))) | ((b[((int) l1) - 58909] & 0xff) & 63);
       l9 = 4L;
      }
      l10 = l10 - l9;
      l1 = l1 + l9;
      if (l13 != 21313) { break L39; }
      if (l10 == 0L) { break L37; }
      l13 = (l15 = (int) b[((int) l1) - 58912]) & 255;
      l9 = 1L;
      L45: {
       if (l15 > -1) { break L45; }
       l14 = (b[((int) l1) - 58911] & 0xff) & 63;
       L46: {
        if (l15 + Integer.MIN_VALUE > 2147483615) { break L46; }
        l13 = ((l13 << 6) & 1984) | l14;
        l9 = 2L;
        break L45;
       }
       l16 = (b[((int) l1) - 58910] & 0xff) & 63;
       L47: {
        if (l15 + Integer.MIN_VALUE > 2147483631) { break L47; }
        l13 = ((l14 << 6) | ((l13 << 12) & 61440)) | l16;
        l9 = 3L;
        break L45;
       }
       l13 = ((l16 << 6) | ((l14 << 12) | ((l13 << 18) & 1835008))) | ((b[((int) l1) - 58909] & 0xff) & 63);
       l9 = 4L;
      }
      Core2.f63(m, l2 + 64L, l13);
      if (l10 == l9) { break L39; }
      if ((l13 + -48) + Integer.MIN_VALUE < -2147483638) { break L39; }
      if (((b[((int) l2) - 58848] & 0xff) & 255) != 1) { break L39; }
      if ((l13 = (int) b[((int) (l9 = l1 + l9)) - 58912]) > -1) { break L39; }
      if (l13 + Integer.MIN_VALUE < 2147483616) { break L39; }
      l15 = l13 & 255;
      l14 = (b[((int) l9) - 58911] & 0xff) & 63;
      l16 = (b[((int) l9) - 58910] & 0xff) & 63;
      L48: {
       L49: {
        if (l13 + Integer.MIN_VALUE > 2147483631) { break L49; }
        l13 = ((l14 << 6) | ((l15 << 12) & 61440)) | l16;
        break L48;
       }
       l13 = ((l16 << 6) | ((l14 << 12) | ((l15 << 18) & 1835008))) | ((b[((int) l9) - 58909] & 0xff) & 63);
      }
      if (l13 != 21313) { break L39; }
      l15 = 1;
      l13 = 1;
      break L1;
     }
     if (l10 != 0L) { continue L38; }
     break L38;
    }
   }
   l1 = l5;
   l9 = l6;
   L50: {
    L51: {
     L52: {
      final int x111 = f126_2(m, l1, l2, l3, l4, l5, l6, l7, l8, l9, l10, l12, l13, l14, l15, l16, l17, l18, l19, l20, l21);
      l1 = m.kept[0];
      l9 = m.kept[1];
      l10 = m.kept[2];
      l13 = (int) m.kept[3];
      l14 = (int) m.kept[4];
      l15 = (int) m.kept[5];
      l16 = (int) m.kept[6];
      l18 = (int) m.kept[7];
      l19 = (int) m.kept[8];
      l20 = (int) m.kept[9];
      l21 = (int) m.kept[10];
      switch (x111) {
      case 1: break L50;
      case 2: break L1;
      case 3: break L52;
      }
      L112: {
       L113: {
        L114: {
         L115: {
          L116: {
           L117: {
            L118: {
             L119: {
              L120: {
               L121: {
                if (l13 > 27154) { break L121; }
                L122: {
                 if (l13 > 23617) { break L122; }
                 l1 = l5;
                 l9 = l6;
                 if (l13 == 21010) { break L120; }
                 l1 = l5;
                 l9 = l6;
                 if (l13 == 21123) { break L120; }
                 break L52;
                }
                switch (l13 + -23618) {
                case 0: case 34: break L116;
                case 1: case 2: case 3: case 5: case 6: case 7: case 9: case 10: case 11: case 12: case 13: case 14: case 15: case 16: case 17: case 18: case 19: case 20: case 21: case 22: case 23: case 24: case 25: case 26: case 27: case 28: case 29: case 30: case 31: case 32: case 33: break L52;
                case 4: case 8: break L119;
                default: break L118;
                }
               }
               if (l13 > 36826) { break L117; }
               if (l13 == 27155) { break L116; }
               l1 = l5;
               l9 = l6;
               if (l13 == 32218) { break L120; }
               l1 = l5;
               l9 = l6;
               if (l13 != 32447) { break L52; }
              }
              L123: while (true) {
               if (l9 == 0L) { break L52; }
               l13 = (l15 = (int) b[((int) l1) - 58912]) & 255;
               l10 = 1L;
               L124: {
                if (l15 > -1) { break L124; }
                l14 = (b[((int) l1) - 58911] & 0xff) & 63;
                L125: {
                 if (l15 + Integer.MIN_VALUE > 2147483615) { break L125; }
                 l13 = ((l13 << 6) & 1984) | l14;
                 l10 = 2L;
                 break L124;
                }
                l16 = (b[((int) l1) - 58910] & 0xff) & 63;
                L126: {
                 if (l15 + Integer.MIN_VALUE > 2147483631) { break L126; }
                 l13 = ((l14 << 6) | ((l13 << 12) & 61440)) | l16;
                 l10 = 3L;
                 break L124;
                }
                l13 = ((l16 << 6) | ((l14 << 12) | ((l13 << 18) & 1835008))) | ((b[((int) l1) - 58909] & 0xff) & 63);
                l10 = 4L;
               }
               if (l13 == 28857) { break L51; }
               l9 = l9 - l10;
               l1 = l1 + l10;
               if (l13 != 40670) { continue L123; }
               break L51;
              }
             }
             l1 = 1L;
             L127: {
              if (l15 != 0) { break L127; }
              l13 = (b[((int) l7) - 58911] & 0xff) & 63;
              L128: {
               if (l14 + Integer.MIN_VALUE > 2147483615) { break L128; }
               l16 = ((l16 << 6) & 1984) | l13;
               l1 = 2L;
               break L127;
              }
              l15 = (b[((int) l7) - 58910] & 0xff) & 63;
              L129: {
               if (l14 + Integer.MIN_VALUE > 2147483631) { break L129; }
               l16 = ((l13 << 6) | ((l16 << 12) & 61440)) | l15;
               l1 = 3L;
               break L127;
              }
              l16 = ((l15 << 6) | ((l13 << 12) | ((l16 << 18) & 1835008))) | ((b[((int) l7) - 58909] & 0xff) & 63);
              l1 = 4L;
             }
             if (l8 == l1) { break L52; }
             l15 = (l13 = (int) b[((int) (l9 = l7 + l1)) - 58912]) & 255;
             l10 = 1L;
             L130: {
              if (l13 > -1) { break L130; }
              l14 = (b[((int) l9) - 58911] & 0xff) & 63;
              L131: {
               if (l13 + Integer.MIN_VALUE > 2147483615) { break L131; }
               l15 = ((l15 << 6) & 1984) | l14;
               l10 = 2L;
               break L130;
              }
              l18 = (b[((int) l9) - 58910] & 0xff) & 63;
              L132: {
               if (l13 + Integer.MIN_VALUE > 2147483631) { break L132; }
               l15 = ((l14 << 6) | ((l15 << 12) & 61440)) | l18;
               l10 = 3L;
               break L130;
              }
              l15 = ((l18 << 6) | ((l14 << 12) | ((l15 << 18) & 1835008))) | ((b[((int) l9) - 58909] & 0xff) & 63);
              l10 = 4L;
             }
             if (((l16 + -23622) & -5) != 0) { break L52; }
             Core2.f63(m, l2 + 32L, l15);
             if (l8 == (l10 + l1)) { break L52; }
             if ((l15 + -48) + Integer.MIN_VALUE < -2147483638) { break L52; }
             if (((b[((int) l2) - 58880] & 0xff) & 255) != 1) { break L52; }
             if ((l13 = (int) b[((int) (l1 = l9 + l10)) - 58912]) > -1) { break L52; }
             if (l13 + Integer.MIN_VALUE < 2147483616) { break L52; }
             l15 = l13 & 255;
             l14 = (b[((int) l1) - 58911] & 0xff) & 63;
             l16 = (b[((int) l1) - 58910] & 0xff) & 63;
             L133: {
              L134: {
               if (l13 + Integer.MIN_VALUE > 2147483631) { break L134; }
               l13 = ((l14 << 6) | ((l15 << 12) & 61440)) | l16;
               break L133;
              }
              l13 = ((l16 << 6) | ((l14 << 12) | ((l15 << 18) & 1835008))) | ((b[((int) l1) - 58909] & 0xff) & 63);
             }
             if (l13 != 20013) { break L52; }
             l13 = 1;
             l15 = 2;
             break L1;
            }
            if (l13 == 27004) { break L116; }
            break L52;
           }
           L135: {
            if (l13 > 38916) { break L135; }
            L136: {
             if (l13 == 36827) { break L136; }
             if (l13 != 36914) { break L52; }
            }
            if (l8 == l1) { break L52; }
            if ((l13 = (int) b[((int) (l1 = l7 + l1)) - 58912]) > -1) { break L52; }
            if (l13 + Integer.MIN_VALUE < 2147483616) { break L52; }
            l15 = l13 & 255;
            l14 = (b[((int) l1) - 58911] & 0xff) & 63;
            l16 = (b[((int) l1) - 58910] & 0xff) & 63;
            if (l13 + Integer.MIN_VALUE > 2147483631) { break L115; }
            l13 = ((l14 << 6) | ((l15 << 12) & 61440)) | l16;
            break L114;
           }
           if (l13 == 38917) { break L116; }
           if (l13 != 39033) { break L52; }
          }
          if (l17 != 0) { break L52; }
          if ((l13 = (int) b[((int) l5) - 58912]) > -1) { break L52; }
          if (l13 + Integer.MIN_VALUE < 2147483616) { break L52; }
          l15 = l13 & 255;
          l14 = (b[((int) l5) - 58911] & 0xff) & 63;
          l16 = (b[((int) l5) - 58910] & 0xff) & 63;
          if (l13 + Integer.MIN_VALUE > 2147483631) { break L113; }
          l13 = ((l14 << 6) | ((l15 << 12) & 61440)) | l16;
          break L112;
         }
         l13 = ((l16 << 6) | ((l14 << 12) | ((l15 << 18) & 1835008))) | ((b[((int) l1) - 58909] & 0xff) & 63);
        }
        l15 = 2;
        if (l13 == 20301) { break L50; }
        if (l13 == 21046) { break L50; }
        break L52;
       }
       l13 = ((l16 << 6) | ((l14 << 12) | ((l15 << 18) & 1835008))) | ((b[((int) l5) - 58909] & 0xff) & 63);
      }
      l15 = 2;
      if (l13 == 36000) { break L50; }
      if (l13 == 36127) { break L50; }
     }
     L137: {
      if ((l18 = (l4 == 0L) ? 1 : 0) != 0) { break L137; }
      if (((int) b[((int) ((l1 = l3 + l4) + -1L)) - 58912]) > -1) { break L137; }
      l10 = -2L;
      L138: {
       if ((b[((int) (l1 + -2L)) - 58912] & 0xff) + Integer.MIN_VALUE > -2147483457) { break L138; }
       l10 = ((b[((int) (l1 + -3L)) - 58912] & 0xff) + Integer.MIN_VALUE > -2147483457) ? -3L : -4L;
      }
      if ((l13 = (int) b[((int) (l1 = (l3 + l10) + l4)) - 58912]) > -1) { break L137; }
      if (l13 + Integer.MIN_VALUE < 2147483616) { break L137; }
      l15 = l13 & 255;
      l14 = (b[((int) l1) - 58911] & 0xff) & 63;
      l16 = (b[((int) l1) - 58910] & 0xff) & 63;
      L139: {
       L140: {
        if (l13 + Integer.MIN_VALUE > 2147483631) { break L140; }
        l13 = ((l14 << 6) | ((l15 << 12) & 61440)) | l16;
        break L139;
       }
       l13 = ((l16 << 6) | ((l14 << 12) | ((l15 << 18) & 1835008))) | ((b[((int) l1) - 58909] & 0xff) & 63);
      }
      if (l12 != 0) { break L137; }
      if (l13 != 31532) { break L137; }
      l13 = (l15 = (int) b[((int) l7) - 58912]) & 255;
      l1 = 1L;
      L141: {
       if (l15 > -1) { break L141; }
       l14 = (b[((int) l7) - 58911] & 0xff) & 63;
       L142: {
        if (l15 + Integer.MIN_VALUE > 2147483615) { break L142; }
        l13 = ((l13 << 6) & 1984) | l14;
        l1 = 2L;
        break L141;
       }
       l16 = (b[((int) l7) - 58910] & 0xff) & 63;
       L143: {
        if (l15 + Integer.MIN_VALUE > 2147483631) { break L143; }
        l13 = ((l14 << 6) | ((l13 << 12) & 61440)) | l16;
        l1 = 3L;
        break L141;
       }
       l13 = ((l16 << 6) | ((l14 << 12) | ((l13 << 18) & 1835008))) | ((b[((int) l7) - 58909] & 0xff) & 63);
       l1 = 4L;
      }
      l10 = l7 + l1;
      L144: {
       L145: {
        if (l13 == 26465) { break L145; }
        if (l13 == 27425) { break L144; }
        if (l13 != 26781) { break L137; }
       }
       l15 = 2;
       if (l8 == l1) { break L50; }
       if ((l13 = (int) b[((int) l10) - 58912]) > -1) { break L50; }
       if (l13 + Integer.MIN_VALUE < 2147483616) { break L50; }
       l14 = l13 & 255;
       l16 = (b[((int) l10) - 58911] & 0xff) & 63;
       l20 = (b[((int) l10) - 58910] & 0xff) & 63;
       L146: {
        L147: {
         if (l13 + Integer.MIN_VALUE > 2147483631) { break L147; }
         if (((l13 = (l16 << 6) | ((l14 << 12) & 61440)) + -19968) + Integer.MIN_VALUE >= -2147462656) { break L50; }
         l13 = l13 | l20;
         break L146;
        }
        if (((l13 = (l20 << 6) | ((l16 << 12) | ((l14 << 18) & 1835008))) + -19968) + Integer.MIN_VALUE >= -2147462656) { break L50; }
        l13 = l13 | ((b[((int) l10) - 58909] & 0xff) & 63);
       }
       L148: {
        if (l13 > 25109) { break L148; }
        L149: {
         if (l13 > 21039) { break L149; }
         if (l13 == 19982) { break L50; }
         if (l13 == 20043) { break L50; }
         break L137;
        }
        if (l13 == 21040) { break L50; }
        if (l13 == 21450) { break L50; }
        if (l13 == 21644) { break L50; }
        break L137;
       }
       L150: {
        if (l13 > 33286) { break L150; }
        if (l13 == 25110) { break L50; }
        if (l13 == 31532) { break L50; }
        if (l13 == 33267) { break L50; }
        break L137;
       }
       if (l13 == 33287) { break L50; }
       if (l13 == 35215) { break L50; }
       if (l13 == 35268) { break L50; }
       break L137;
      }
      if (l8 == l1) { break L137; }
      if ((l13 = (int) b[((int) l10) - 58912]) > -1) { break L137; }
      if (l13 + Integer.MIN_VALUE < 2147483616) { break L137; }
      l15 = l13 & 255;
      l14 = (b[((int) l10) - 58911] & 0xff) & 63;
      l16 = (b[((int) l10) - 58910] & 0xff) & 63;
      L151: {
       L152: {
        if (l13 + Integer.MIN_VALUE > 2147483631) { break L152; }
        l13 = ((l14 << 6) | ((l15 << 12) & 61440)) | l16;
        break L151;
       }
       l13 = ((l16 << 6) | ((l14 << 12) | ((l15 << 18) & 1835008))) | ((b[((int) l10) - 58909] & 0xff) & 63);
      }
      if (l13 == 20840) { break L51; }
     }
     final int x210 = f126_3(m, l1, l2, l3, l4, l5, l6, l7, l8, l9, l10, l11, l12, l13, l14, l15, l16, l17, l18, l20, l21);
     l1 = m.kept[0];
     l7 = m.kept[1];
     l8 = m.kept[2];
     l9 = m.kept[3];
     l10 = m.kept[4];
     l11 = m.kept[5];
     l12 = (int) m.kept[6];
     l13 = (int) m.kept[7];
     l14 = (int) m.kept[8];
     l15 = (int) m.kept[9];
     l16 = (int) m.kept[10];
     l17 = (int) m.kept[11];
     l20 = (int) m.kept[12];
     l21 = (int) m.kept[13];
     switch (x210) {
     case 1: break L50;
     case 2: break L1;
     }
     l13 = 0;
     L211: {
      if ((l14 = (int) b[((int) (l3 + (l7 = l4 + -1L))) - 58912]) >= 0) { break L211; }
      l1 = -2L;
      L212: {
       if ((b[((int) ((l10 = l3 + l4) + -2L)) - 58912] & 0xff) + Integer.MIN_VALUE > -2147483457) { break L212; }
       l1 = ((b[((int) (l10 + -3L)) - 58912] & 0xff) + Integer.MIN_VALUE > -2147483457) ? -3L : -4L;
      }
      l14 = (l15 = (int) b[((int) (l1 = l3 + (l7 = l1 + l4))) - 58912]) & 255;
      if (l15 > -1) { break L211; }
      l12 = (b[((int) l1) - 58911] & 0xff) & 63;
      L213: {
       if (l15 + Integer.MIN_VALUE > 2147483615) { break L213; }
       l14 = ((l14 << 6) & 1984) | l12;
       break L211;
      }
      l16 = (b[((int) l1) - 58910] & 0xff) & 63;
      L214: {
       if (l15 + Integer.MIN_VALUE > 2147483631) { break L214; }
       l14 = ((l12 << 6) | ((l14 << 12) & 61440)) | l16;
       break L211;
      }
      l14 = ((l16 << 6) | ((l12 << 12) | ((l14 << 18) & 1835008))) | ((b[((int) l1) - 58909] & 0xff) & 63);
     }
     L215: {
      L216: {
       if (l14 > 12315) { break L216; }
       L217: {
        if (l14 > 8210) { break L217; }
        if (l14 == 45) { break L215; }
        l15 = 0;
        if (l14 == 126) { break L215; }
        break L1;
       }
       if ((l14 + -8211) + Integer.MIN_VALUE < -2147483646) { break L215; }
       l15 = 0;
       if (l14 == 12289) { break L215; }
       break L1;
      }
      L218: {
       if (l14 > 33266) { break L218; }
       if (l14 == 12316) { break L215; }
       l15 = 0;
       if (l14 == 21040) { break L215; }
       break L1;
      }
      if (l14 == 33267) { break L215; }
      if (l14 == 65374) { break L215; }
      l15 = 0;
      if (l14 != 65293) { break L1; }
     }
     l10 = l7;
     L219: {
      L220: while (true) {
       if ((l1 = l10) == 0L) { break L219; }
       L221: {
        if ((l13 = (int) b[((int) (l3 + (l10 = l1 + -1L))) - 58912]) >= 0) { break L221; }
        l10 = -2L;
        L222: {
         if ((b[((int) ((l9 = l3 + l1) + -2L)) - 58912] & 0xff) + Integer.MIN_VALUE > -2147483457) { break L222; }
         l10 = ((b[((int) (l9 + -3L)) - 58912] & 0xff) + Integer.MIN_VALUE > -2147483457) ? -3L : -4L;
        }
        l13 = (l15 = (int) b[((int) (l9 = l3 + (l10 = l10 + l1))) - 58912]) & 255;
        if (l15 > -1) { break L221; }
        l12 = (b[((int) l9) - 58911] & 0xff) & 63;
        L223: {
         if (l15 + Integer.MIN_VALUE > 2147483615) { break L223; }
         l13 = ((l13 << 6) & 1984) | l12;
         break L221;
        }
        l16 = (b[((int) l9) - 58910] & 0xff) & 63;
        L224: {
         if (l15 + Integer.MIN_VALUE > 2147483631) { break L224; }
         l13 = ((l12 << 6) | ((l13 << 12) & 61440)) | l16;
         break L221;
        }
        l13 = ((l16 << 6) | ((l12 << 12) | ((l13 << 18) & 1835008))) | ((b[((int) l9) - 58909] & 0xff) & 63);
       }
       if (Core5.f181(m, l13) != 0) { continue L220; }
       break L220;
      }
     }
     l15 = ((l13 = Core6.f182(m, l14, l3 + l1, l7 - l1, l5, l6)) != 0) ? 5 : 0;
     break L1;
    }
    l15 = 2;
   }
   l13 = 1;
   break L1;
  }
  l13 = 1;
  l15 = 3;
 }
 b[((int) l0) - 58911] = (byte) l15;
 b[((int) l0) - 58912] = (byte) l13;
 m.g0 = l2 + 80L;
}

static int f127(State m, int l0) {
 int l1 = 0;
 L1: {
  L2: {
   L3: {
    L4: {
     L5: {
      L6: {
       if (m.g0 < 16L) { break L6; }
       L7: {
        if (l0 > 26088) { break L7; }
        L8: {
         if (l0 > 21319) { break L8; }
         L9: {
          if (l0 > 20620) { break L9; }
          if (l0 == 20013) { break L2; }
          if (l0 != 20170) { break L3; }
          break L2;
         }
         if (l0 == 20621) { break L2; }
         if (l0 != 20940) { break L3; }
         break L2;
        }
        L10: {
         if (l0 > 22811) { break L10; }
         L11: {
          switch (l0 + -21320) {
          case 0: case 2: break L2;
          case 1: break L3;
          default: break L11;
          }
         }
         if (l0 != 21608) { break L3; }
         break L2;
        }
        if (l0 == 22812) { break L2; }
        if (l0 != 24403) { break L3; }
        break L2;
       }
       L12: {
        if (l0 > 28144) { break L12; }
        if ((l1 = l0 + -26089) + Integer.MIN_VALUE <= -2147483585) { break L5; }
        break L4;
       }
       L13: {
        if (l0 > 31035) { break L13; }
        if (l0 == 28145) { break L2; }
        if (l0 == 28165) { break L2; }
        if (l0 != 30070) { break L3; }
        break L2;
       }
       if (l0 == 31036) { break L2; }
       if (l0 == 31150) { break L2; }
       if (l0 == 36913) { break L2; }
       break L3;
      }
      throw State.trap();
     }
     if (((1L << (l1 & 0xffffffffL)) & -9205357500906340351L) != 0L) { break L2; }
    }
    if (l0 == 26202) { break L2; }
    if (l0 == 27491) { break L2; }
   }
   l1 = 0;
   if ((l0 & -2) != 19978) { break L1; }
  }
  l1 = 1;
 }
 return l1;
}

static int f128(State m, long l0, long l1) {
 final byte[] b = m.bytes;
 int l2 = 0;
 int l3 = 0;
 int l4 = 0;
 int l5 = 0;
 int l6 = 0;
 long l7 = 0;
 L1: {
  if (m.g0 < 16L) { break L1; }
  l2 = 0;
  L2: {
   if (l1 == 0L) { break L2; }
   if ((l3 = (int) b[((int) l0) - 58912]) > -1) { break L2; }
   if (l3 + Integer.MIN_VALUE < 2147483616) { break L2; }
   l4 = l3 & 255;
   l5 = (b[((int) l0) - 58911] & 0xff) & 63;
   l6 = (b[((int) l0) - 58910] & 0xff) & 63;
   L3: {
    L4: {
     if (l3 + Integer.MIN_VALUE > 2147483631) { break L4; }
     l3 = ((l5 << 6) | ((l4 << 12) & 61440)) | l6;
     l7 = 3L;
     break L3;
    }
    l3 = ((l6 << 6) | ((l5 << 12) | ((l4 << 18) & 1835008))) | ((b[((int) l0) - 58909] & 0xff) & 63);
    l7 = 4L;
   }
   if (l3 != 19968) { break L2; }
   if (l1 == l7) { break L2; }
   l4 = (l2 = (int) b[((int) (l1 = l0 + l7)) - 58912]) & 255;
   L5: {
    if (l2 > -1) { break L5; }
    l3 = (b[((int) l1) - 58911] & 0xff) & 63;
    L6: {
     if (l2 + Integer.MIN_VALUE > 2147483615) { break L6; }
     l4 = ((l4 << 6) & 1984) | l3;
     break L5;
    }
    l5 = (b[((int) l1) - 58910] & 0xff) & 63;
    L7: {
     if (l2 + Integer.MIN_VALUE > 2147483631) { break L7; }
     l4 = ((l3 << 6) | ((l4 << 12) & 61440)) | l5;
     break L5;
    }
    l4 = ((l5 << 6) | ((l3 << 12) | ((l4 << 18) & 1835008))) | ((b[((int) l1) - 58909] & 0xff) & 63);
   }
   l1 = -268L;
   L8: while (true) {
    if ((l2 = (Words.get32(b, ((int) (l1 + 83776L)) - 58912) == l4) ? 1 : 0) != 0) { break L2; }
    l3 = (l1 != 0L) ? 1 : 0;
    l1 = l1 + 4L;
    if (l3 != 0) { continue L8; }
    break L8;
   }
  }
  final int t9 = l2;
  return t9;
 }
 throw State.trap();
}

static void f129(State m, long l0, long l1, long l2, long l3, long l4, int l5, int l6) {
 final byte[] b = m.bytes;
 long l7 = 0;
 long l8 = 0;
 long l9 = 0;
 long l10 = 0;
 long l11 = 0;
 int l12 = 0;
 int l13 = 0;
 int l14 = 0;
 int l15 = 0;
 int l16 = 0;
 m.g0 = l7 = m.g0 - 16L;
 L1: {
  if ((l7 = l7) < 16L) { break L1; }
  l8 = l2 - l4;
  L2: {
   L3: {
    L4: {
     L5: {
      if (l4 + Long.MIN_VALUE < -9223372036854775805L) { break L5; }
      if (((l12 = b[((int) l3) - 58912] & 0xff) & 240) != 224) { break L4; }
      final int t6 = b[((int) ((l9 = ((((l15 = (((l13 = b[((int) l3) - 58911] & 0xff) << 8) | ((l14 = b[((int) l3) - 58910] & 0xff) << 16)) | l12) & 0xffffffffL) * 953497L) >>> 22L) & 1016L) + 66857L)) - 58912] & 0xff;
      final int t7 = l15 = (Words.get32(b, State.far((int) l9, 66852)) == l15) ? 1 : 0;
      l16 = t7 != 0 ? t6 : 0;
      final int t8 = b[((int) (l9 + 66856L)) - 58912] & 0xff;
      final int t9 = l15;
      l15 = t9 != 0 ? t8 : 2;
      l12 = (l13 = ((l12 << 12) | l14) + (l13 << 6)) + -925824;
      l4 = l4 + -3L;
      l3 = l3 + 3L;
      L10: {
       L11: {
        if (l13 == 947141) { break L11; }
        if (l13 == 950143) { break L11; }
        if ((l13 + -991120) + Integer.MIN_VALUE < -2147483638) { break L11; }
        L12: {
         L13: {
          if (l13 > 946314) { break L13; }
          L14: {
           if (l13 > 945802) { break L14; }
           L15: {
            if (l13 > 934063) { break L15; }
            L16: {
             switch (l13 + -925856) {
             case 0: case 5: break L11;
             case 1: case 2: case 3: case 4: break L12;
             default: break L16;
             }
            }
            if (l13 != 925989) { break L12; }
            break L11;
           }
           if (l13 == 934064) { break L11; }
           if (l13 != 934546) { break L12; }
           break L11;
          }
          L17: {
           if (l13 > 945866) { break L17; }
           L18: {
            switch (l13 + -945828) {
            case 0: case 6: break L11;
            case 1: case 2: case 3: case 4: case 5: break L12;
            default: break L18;
            }
           }
           if (l13 != 945803) { break L12; }
           break L11;
          }
          if (l13 == 945867) { break L11; }
          if (l13 != 946015) { break L12; }
          break L11;
         }
         L19: {
          if (l13 > 954680) { break L19; }
          L20: {
           if (l13 > 946821) { break L20; }
           if (l13 == 946315) { break L11; }
           if (l13 != 946665) { break L12; }
           break L11;
          }
          if (l13 == 946822) { break L11; }
          if (l13 == 947139) { break L11; }
          if (l13 != 947272) { break L12; }
          break L11;
         }
         L21: {
          if (l13 > 966493) { break L21; }
          if (l13 == 954681) { break L11; }
          if (l13 == 961824) { break L11; }
          if (l13 != 961951) { break L12; }
          break L11;
         }
         if (l13 == 966494) { break L11; }
         if (l13 == 991109) { break L11; }
         if (l13 == 991333) { break L11; }
        }
        if (l12 + Integer.MIN_VALUE < -2147483604) { break L10; }
        if (l12 + Integer.MIN_VALUE < -2147483601) { break L11; }
        if ((l13 + -991116) + Integer.MIN_VALUE > -2147483646) { break L10; }
       }
       L22: {
        L23: {
         if ((l15 & 255) != 2) { break L23; }
         if (l13 == 947141) { break L3; }
         if (l13 == 950143) { break L3; }
         if ((l13 + -991120) + Integer.MIN_VALUE >= -2147483638) { break L22; }
         break L3;
        }
        if (f146(m, l5, l6, l12, l15, l16, l3, l4) == 0) { break L22; }
        if (Core5.f147(m, l5, l6, l1, l8, l12, l3, l4) == 0) { break L3; }
       }
       l10 = 0L;
       l11 = 0L;
       l9 = 0L;
       if (Core5.f148(m, l5, l6, l1, l8, l12, l3, l4) != 0) { break L3; }
       break L2;
      }
      l10 = 0L;
      l11 = 0L;
      l9 = 0L;
      L24: {
       L25: {
        switch ((int) ((l15 & 0xffffffffL) & 255L)) {
        case 1: break L25;
        case 2: break L2;
        default: break L24;
        }
       }
       l10 = 0L;
       l11 = 0L;
       l9 = 0L;
       if ((l6 & 255) + Integer.MIN_VALUE < (l16 & 255) + Integer.MIN_VALUE) { break L2; }
      }
      L26: {
       if ((l5 & 1) != 0) { break L26; }
       l11 = 0L;
       l10 = 0L;
       L27: {
        L28: {
         if (l13 > 955413) { break L28; }
         L29: {
          if (l13 > 948600) { break L29; }
          L30: {
           if (l13 != 946015) { break L30; }
           l9 = 0L;
           break L2;
          }
          L31: {
           if (l13 != 946061) { break L31; }
           l9 = 0L;
           break L2;
          }
          l9 = 0L;
          if (l13 != 946160) { break L27; }
          break L2;
         }
         L32: {
          if (l13 > 951243) { break L32; }
          L33: {
           if (l13 != 948601) { break L33; }
           l9 = 0L;
           break L2;
          }
          l9 = 0L;
          if (l13 != 951166) { break L27; }
          break L2;
         }
         L34: {
          if (l13 != 951244) { break L34; }
          l9 = 0L;
          break L2;
         }
         l9 = 0L;
         if (l13 != 952402) { break L27; }
         break L2;
        }
        L35: {
         if (l13 > 961967) { break L35; }
         l9 = 0L;
         L36: {
          switch (l13 + -961838) {
          case 0: case 5: break L2;
          case 1: case 2: case 3: case 4: break L27;
          default: break L36;
          }
         }
         L37: {
          if (l13 != 955414) { break L37; }
          l9 = 0L;
          break L2;
         }
         l9 = 0L;
         if (l13 != 958726) { break L27; }
         break L2;
        }
        L38: {
         if (l13 != 961968) { break L38; }
         l9 = 0L;
         break L2;
        }
        L39: {
         if (l13 != 964294) { break L39; }
         l9 = 0L;
         break L2;
        }
        l9 = 0L;
        if (l13 == 964344) { break L2; }
       }
       l10 = 0L;
       l11 = 0L;
       l9 = 0L;
       if ((l13 + -947265) + Integer.MIN_VALUE < -2147483644) { break L2; }
      }
      if ((l15 & 255) != 1) { break L3; }
      if (((1 << (l13 = l16 & 255)) & 65470) != 0) { break L3; }
      L40: {
       if (l13 != 0) { break L40; }
       l10 = 0L;
       l11 = 0L;
       l9 = 0L;
       if (Core3.f109(m, l5, l6, l3, l4) != 0) { break L3; }
       break L2;
      }
      l10 = 0L;
      l11 = 0L;
      l9 = 0L;
      if (Core3.f108(m, l3, l4) == 0) { break L3; }
      break L2;
     }
     L41: {
      if (!(l4 == 0L)) { break L41; }
      l10 = 0L;
      l11 = 0L;
      l9 = 0L;
      break L2;
     }
     l12 = b[((int) l3) - 58912] & 0xff;
    }
    l9 = 1L;
    L42: {
     if (((int) (byte) l12) > -1) { break L42; }
     l13 = (b[((int) l3) - 58911] & 0xff) & 63;
     L43: {
      if (l12 + Integer.MIN_VALUE > -2147483425) { break L43; }
      l12 = ((l12 << 6) & 1984) | l13;
      l9 = 2L;
      break L42;
     }
     l15 = (b[((int) l3) - 58910] & 0xff) & 63;
     L44: {
      if (l12 + Integer.MIN_VALUE > -2147483409) { break L44; }
      l12 = ((l13 << 6) | ((l12 << 12) & 61440)) | l15;
      l9 = 3L;
      break L42;
     }
     l12 = ((l15 << 6) | ((l13 << 12) | ((l12 << 18) & 1835008))) | ((b[((int) l3) - 58909] & 0xff) & 63);
     l9 = 4L;
    }
    L45: {
     L46: {
      if ((l12 + -2048) + Integer.MIN_VALUE > -2147420161) { break L46; }
      final int t47 = b[((int) ((l10 = ((((l13 = (((l12 >>> 12) | ((l12 << 2) & 16128)) | ((l12 << 16) & 4128768)) | 8421600) & 0xffffffffL) * 953497L) >>> 22L) & 1016L) + 66857L)) - 58912] & 0xff;
      final int t48 = l13 = (Words.get32(b, State.far((int) l10, 66852)) == l13) ? 1 : 0;
      l15 = t48 != 0 ? t47 : 0;
      final int t49 = b[((int) (l10 + 66856L)) - 58912] & 0xff;
      final int t50 = l13;
      l13 = t50 != 0 ? t49 : 2;
      break L45;
     }
     final int t51 = l13 = l12 + -48;
     final int t52 = l13 = (l13 + Integer.MIN_VALUE < -2147483638) ? 1 : 0;
     l15 = t52 != 0 ? t51 : 0;
     l13 = l13 != 0 ? 0 : 2;
    }
    l4 = l4 - l9;
    l3 = l3 + l9;
    L53: {
     L54: {
      if (l12 == 21317) { break L54; }
      if (l12 == 24319) { break L54; }
      if ((l12 + -65296) + Integer.MIN_VALUE < -2147483638) { break L54; }
      L55: {
       L56: {
        if (l12 > 20490) { break L56; }
        L57: {
         if (l12 > 19978) { break L57; }
         L58: {
          if (l12 > 8239) { break L58; }
          L59: {
           switch (l12 + -32) {
           case 0: case 5: break L54;
           case 1: case 2: case 3: case 4: break L55;
           default: break L59;
           }
          }
          if (l12 != 165) { break L55; }
          break L54;
         }
         if (l12 == 8240) { break L54; }
         if (l12 != 8722) { break L55; }
         break L54;
        }
        L60: {
         if (l12 > 20042) { break L60; }
         L61: {
          switch (l12 + -20004) {
          case 0: case 6: break L54;
          case 1: case 2: case 3: case 4: case 5: break L55;
          default: break L61;
          }
         }
         if (l12 != 19979) { break L55; }
         break L54;
        }
        if (l12 == 20043) { break L54; }
        if (l12 != 20191) { break L55; }
        break L54;
       }
       L62: {
        if (l12 > 28856) { break L62; }
        L63: {
         if (l12 > 20997) { break L63; }
         if (l12 == 20491) { break L54; }
         if (l12 != 20841) { break L55; }
         break L54;
        }
        if (l12 == 20998) { break L54; }
        if (l12 == 21315) { break L54; }
        if (l12 != 21448) { break L55; }
        break L54;
       }
       L64: {
        if (l12 > 40669) { break L64; }
        if (l12 == 28857) { break L54; }
        if (l12 == 36000) { break L54; }
        if (l12 != 36127) { break L55; }
        break L54;
       }
       if (l12 == 40670) { break L54; }
       if (l12 == 65285) { break L54; }
       if (l12 == 65509) { break L54; }
      }
      if (l12 + Integer.MIN_VALUE < -2147483604) { break L53; }
      if (l12 + Integer.MIN_VALUE < -2147483601) { break L54; }
      if ((l12 + -65292) + Integer.MIN_VALUE > -2147483646) { break L53; }
     }
     L65: {
      L66: {
       if ((l13 & 255) != 2) { break L66; }
       if (l12 == 21317) { break L3; }
       if (l12 == 24319) { break L3; }
       if ((l12 + -65296) + Integer.MIN_VALUE >= -2147483638) { break L65; }
       break L3;
      }
      if (f146(m, l5, l6, l12, l13, l15, l3, l4) == 0) { break L65; }
      if (Core5.f147(m, l5, l6, l1, l8, l12, l3, l4) == 0) { break L3; }
     }
     l10 = 0L;
     l11 = 0L;
     l9 = 0L;
     if (Core5.f148(m, l5, l6, l1, l8, l12, l3, l4) != 0) { break L3; }
     break L2;
    }
    l10 = 0L;
    l11 = 0L;
    l9 = 0L;
    L67: {
     L68: {
      switch ((int) ((l13 & 0xffffffffL) & 255L)) {
      case 1: break L68;
      case 2: break L2;
      default: break L67;
      }
     }
     l10 = 0L;
     l11 = 0L;
     l9 = 0L;
     if ((l6 & 255) + Integer.MIN_VALUE < (l15 & 255) + Integer.MIN_VALUE) { break L2; }
    }
    L69: {
     if ((l5 & 1) != 0) { break L69; }
     l11 = 0L;
     l10 = 0L;
     L70: {
      L71: {
       if (l12 > 29589) { break L71; }
       L72: {
        if (l12 > 22776) { break L72; }
        L73: {
         if (l12 != 20191) { break L73; }
         l9 = 0L;
         break L2;
        }
        L74: {
         if (l12 != 20237) { break L74; }
         l9 = 0L;
         break L2;
        }
        l9 = 0L;
        if (l12 != 20336) { break L70; }
        break L2;
       }
       L75: {
        if (l12 > 25419) { break L75; }
        L76: {
         if (l12 != 22777) { break L76; }
         l9 = 0L;
         break L2;
        }
        l9 = 0L;
        if (l12 != 25342) { break L70; }
        break L2;
       }
       L77: {
        if (l12 != 25420) { break L77; }
        l9 = 0L;
        break L2;
       }
       l9 = 0L;
       if (l12 != 26578) { break L70; }
       break L2;
      }
      L78: {
       if (l12 > 36143) { break L78; }
       l9 = 0L;
       L79: {
        switch (l12 + -36014) {
        case 0: case 5: break L2;
        case 1: case 2: case 3: case 4: break L70;
        default: break L79;
        }
       }
       L80: {
        if (l12 != 29590) { break L80; }
        l9 = 0L;
        break L2;
       }
       l9 = 0L;
       if (l12 != 32902) { break L70; }
       break L2;
      }
      L81: {
       if (l12 != 36144) { break L81; }
       l9 = 0L;
       break L2;
      }
      L82: {
       if (l12 != 38470) { break L82; }
       l9 = 0L;
       break L2;
      }
      l9 = 0L;
      if (l12 == 38520) { break L2; }
     }
     l10 = 0L;
     l11 = 0L;
     l9 = 0L;
     if ((l12 + -21441) + Integer.MIN_VALUE < -2147483644) { break L2; }
    }
    if ((l13 & 255) != 1) { break L3; }
    if (((1 << (l13 = l15 & 255)) & 65470) != 0) { break L3; }
    L83: {
     if (l13 != 0) { break L83; }
     l10 = 0L;
     l11 = 0L;
     l9 = 0L;
     if (Core3.f109(m, l5, l6, l3, l4) != 0) { break L3; }
     break L2;
    }
    l10 = 0L;
    l11 = 0L;
    l9 = 0L;
    if (Core3.f108(m, l3, l4) != 0) { break L2; }
   }
   Core5.f149(m, l7, l5, l6, l1, l2, l12, l3, l4);
   l10 = 1L;
   l9 = Words.get64(b, ((int) l7) - 58904);
   l11 = Words.get64(b, ((int) l7) - 58912);
  }
  Words.put64(b, ((int) l0) - 58912, l10);
  Words.put64(b, ((int) (l0 + 16L)) - 58912, l9);
  Words.put64(b, ((int) (l0 + 8L)) - 58912, l11);
  m.g0 = l7 + 16L;
  return;
 }
 throw State.trap();
}

static int f130(State m, long l0, long l1) {
 final byte[] b = m.bytes;
 int l2 = 0;
 int l3 = 0;
 int l4 = 0;
 int l5 = 0;
 L1: {
  L2: {
   L3: {
    L4: {
     if (m.g0 < 16L) { break L4; }
     l2 = 0;
     if (l1 == 0L) { break L1; }
     l3 = (l2 = (int) b[((int) l0) - 58912]) & 255;
     L5: {
      if (l2 > -1) { break L5; }
      l4 = (b[((int) l0) - 58911] & 0xff) & 63;
      L6: {
       if (l2 + Integer.MIN_VALUE > 2147483615) { break L6; }
       l3 = ((l3 << 6) & 1984) | l4;
       break L5;
      }
      l5 = (b[((int) l0) - 58910] & 0xff) & 63;
      L7: {
       if (l2 + Integer.MIN_VALUE > 2147483631) { break L7; }
       l3 = ((l4 << 6) | ((l3 << 12) & 61440)) | l5;
       break L5;
      }
      l3 = ((l5 << 6) | ((l4 << 12) | ((l3 << 18) & 1835008))) | ((b[((int) l0) - 58909] & 0xff) & 63);
     }
     l2 = 1;
     if ((l3 + -48) + Integer.MIN_VALUE < -2147483638) { break L1; }
     if ((l3 + -65296) + Integer.MIN_VALUE < -2147483638) { break L1; }
     L8: {
      if (l3 > 20840) { break L8; }
      L9: {
       if (l3 > 20060) { break L9; }
       if ((l4 = l3 + -19968) + Integer.MIN_VALUE > -2147483612) { break L3; }
       if (((1L << (l4 & 0xffffffffL)) & 68719477257L) == 0L) { break L3; }
       break L1;
      }
      L10: {
       switch (l3 + -20108) {
       case 0: case 8: break L1;
       case 1: case 2: case 3: case 4: case 5: case 6: case 7: break L2;
       default: break L10;
       }
      }
      if (l3 != 20061) { break L2; }
      break L1;
     }
     L11: {
      if (l3 > 21312) { break L11; }
      if ((l3 = l3 + -20841) + Integer.MIN_VALUE > -2147483644) { break L2; }
      if (((1 << l3) & 21) == 0) { break L2; }
      break L1;
     }
     L12: {
      if (l3 > 30333) { break L12; }
      if (l3 == 21313) { break L1; }
      if (l3 != 22235) { break L2; }
      break L1;
     }
     if (l3 == 30334) { break L1; }
     if (l3 == 38646) { break L1; }
     break L2;
    }
    throw State.trap();
   }
   if (l3 == 12295) { break L1; }
  }
  l2 = 0;
 }
 return l2;
}

static void f131(State m, long l0, long l1, long l2) {
 final byte[] b = m.bytes;
 long l3 = 0;
 long l4 = 0;
 long l5 = 0;
 long l6 = 0;
 int l7 = 0;
 int l8 = 0;
 int l9 = 0;
 int l10 = 0;
 L1: {
  if (m.g0 < 16L) { break L1; }
  L2: {
   L3: {
    if (!(l2 == 0L)) { break L3; }
    l3 = 0L;
    l4 = l1;
    break L2;
   }
   l5 = l2;
   l4 = l1;
   L4: while (true) {
    l8 = (l7 = (int) b[((int) l4) - 58912]) & 255;
    l6 = 1L;
    L5: {
     if (l7 > -1) { break L5; }
     l9 = (b[((int) l4) - 58911] & 0xff) & 63;
     L6: {
      if (l7 + Integer.MIN_VALUE > 2147483615) { break L6; }
      l8 = ((l8 << 6) & 1984) | l9;
      l6 = 2L;
      break L5;
     }
     l10 = (b[((int) l4) - 58910] & 0xff) & 63;
     L7: {
      if (l7 + Integer.MIN_VALUE > 2147483631) { break L7; }
      l8 = ((l9 << 6) | ((l8 << 12) & 61440)) | l10;
      l6 = 3L;
      break L5;
     }
     l8 = ((l10 << 6) | ((l9 << 12) | ((l8 << 18) & 1835008))) | ((b[((int) l4) - 58909] & 0xff) & 63);
     l6 = 4L;
    }
    L8: {
     if ((l8 + -48) + Integer.MIN_VALUE < -2147483638) { break L8; }
     if ((l8 + -65296) + Integer.MIN_VALUE < -2147483638) { break L8; }
     L9: {
      L10: {
       L11: {
        if (l8 > 20840) { break L11; }
        L12: {
         if (l8 > 20060) { break L12; }
         if ((l7 = l8 + -19968) + Integer.MIN_VALUE <= -2147483612) { break L10; }
         break L9;
        }
        l3 = l5;
        L13: {
         switch (l8 + -20108) {
         case 0: case 8: break L8;
         case 1: case 2: case 3: case 4: case 5: case 6: case 7: break L2;
         default: break L13;
         }
        }
        if (l8 == 20061) { break L8; }
        l3 = l5;
        break L2;
       }
       L14: {
        if (l8 > 21312) { break L14; }
        L15: {
         if ((l8 = l8 + -20841) + Integer.MIN_VALUE <= -2147483644) { break L15; }
         l3 = l5;
         break L2;
        }
        if (((1 << l8) & 21) != 0) { break L8; }
        l3 = l5;
        break L2;
       }
       L16: {
        if (l8 > 30333) { break L16; }
        if (l8 == 21313) { break L8; }
        if (l8 == 22235) { break L8; }
        l3 = l5;
        break L2;
       }
       if (l8 == 38646) { break L8; }
       if (l8 == 30334) { break L8; }
       l3 = l5;
       break L2;
      }
      if (((1L << (l7 & 0xffffffffL)) & 68719477257L) != 0L) { break L8; }
     }
     if (l8 == 12295) { break L8; }
     l3 = l5;
     break L2;
    }
    l4 = l4 + l6;
    l3 = 0L;
    if ((l5 = l5 - l6) != 0L) { continue L4; }
    break L4;
   }
  }
  Words.put64(b, ((int) l0) - 58888, l3);
  Words.put64(b, ((int) l0) - 58896, l4);
  Words.put64(b, ((int) l0) - 58912, l1);
  Words.put64(b, ((int) l0) - 58904, l2 - l3);
  return;
 }
 throw State.trap();
}

static void f132(State m, long l0, int l1, long l2, long l3) {
 final byte[] b = m.bytes;
 long l4 = 0;
 long l5 = 0;
 int l6 = 0;
 int l7 = 0;
 int l8 = 0;
 int l9 = 0;
 int l10 = 0;
 L1: {
  if (m.g0 < 16L) { break L1; }
  L2: {
   L3: {
    L4: {
     if (!(l3 == 0L)) { break L4; }
     l4 = 0L;
     break L3;
    }
    l7 = (l6 = (int) b[((int) l2) - 58912]) & 255;
    l5 = 1L;
    L5: {
     if (l6 > -1) { break L5; }
     l8 = (b[((int) l2) - 58911] & 0xff) & 63;
     L6: {
      if (l6 + Integer.MIN_VALUE > 2147483615) { break L6; }
      l7 = ((l7 << 6) & 1984) | l8;
      l5 = 2L;
      break L5;
     }
     l9 = (b[((int) l2) - 58910] & 0xff) & 63;
     L7: {
      if (l6 + Integer.MIN_VALUE > 2147483631) { break L7; }
      l7 = ((l8 << 6) | ((l7 << 12) & 61440)) | l9;
      l5 = 3L;
      break L5;
     }
     l7 = ((l9 << 6) | ((l8 << 12) | ((l7 << 18) & 1835008))) | ((b[((int) l2) - 58909] & 0xff) & 63);
     l5 = 4L;
    }
    L8: {
     if ((l4 = l3 - l5) == 0L) { break L8; }
     l8 = (l6 = (int) b[((int) (l5 = l2 + l5)) - 58912]) & 255;
     L9: {
      if (l6 > -1) { break L9; }
      l9 = (b[((int) l5) - 58911] & 0xff) & 63;
      L10: {
       if (l6 + Integer.MIN_VALUE > 2147483615) { break L10; }
       l8 = ((l8 << 6) & 1984) | l9;
       break L9;
      }
      l10 = (b[((int) l5) - 58910] & 0xff) & 63;
      L11: {
       if (l6 + Integer.MIN_VALUE > 2147483631) { break L11; }
       l8 = ((l9 << 6) | ((l8 << 12) & 61440)) | l10;
       break L9;
      }
      l8 = ((l10 << 6) | ((l9 << 12) | ((l8 << 18) & 1835008))) | ((b[((int) l5) - 58909] & 0xff) & 63);
     }
     if (l7 != 32) { break L8; }
     if (l1 != 0) { break L2; }
     if ((l8 + -48) + Integer.MIN_VALUE < -2147483638) { break L2; }
     if ((l8 + -65296) + Integer.MIN_VALUE < -2147483638) { break L2; }
    }
    l4 = l3;
   }
   l5 = l2;
  }
  Words.put64(b, ((int) l0) - 58904, l4);
  Words.put64(b, ((int) l0) - 58912, l5);
  return;
 }
 throw State.trap();
}

static int f133_1(State m, long l1, long l2, long l8, long l9, long l13, long l14, long l15, long l16, long l18, long l20, long l21, long l22, long l23, long l24, long l25, int l27, int l28, int l29, int l30, int l31, int l32) {
 final byte[] b = m.bytes;
 int exit = 0;
 PART: {
  L48: {
   L49: {
    switch (l27) {
    case 12: case 13: break L48;
    case 17: exit = 1; break PART;
    case 22: break L49;
    default: exit = 2; break PART;
    }
   }
   L50: {
    if ((l27 = (l9 == 0L) ? 1 : 0) != 0) { break L50; }
    if ((l30 = (int) b[((int) l20) - 58912]) > -1) { break L50; }
    if (l30 + Integer.MIN_VALUE < 2147483616) { break L50; }
    l29 = l30 & 255;
    l32 = (b[((int) l20) - 58911] & 0xff) & 63;
    l31 = (b[((int) l20) - 58910] & 0xff) & 63;
    L51: {
     L52: {
      if (l30 + Integer.MIN_VALUE > 2147483631) { break L52; }
      l30 = ((l32 << 6) | ((l29 << 12) & 61440)) | l31;
      break L51;
     }
     l30 = ((l31 << 6) | ((l32 << 12) | ((l29 << 18) & 1835008))) | ((b[((int) l20) - 58909] & 0xff) & 63);
    }
    L53: {
     if (l30 == 38047) { break L53; }
     if (l30 != 37912) { break L50; }
    }
    if (Core5.f157(m, 83960L, 2L, 85156L, 1L, l20, l9) == 0) { exit = 2; break PART; }
   }
   L54: {
    L55: {
     L56: {
      if (l28 != 0) { break L56; }
      if (((int) b[((int) l16) - 58912]) > -1) { break L56; }
      l22 = l14;
      l29 = l30 = b[((int) l14) - 58912] & 0xff;
      L57: {
       L58: {
        L59: {
         if (l30 + Integer.MIN_VALUE > -2147483457) { break L59; }
         if ((l29 = (int) b[((int) (l22 = l13 + (((b[((int) l15) - 58912] & 0xff) + Integer.MIN_VALUE > -2147483457) ? -3L : -4L))) - 58912]) > -1) { break L58; }
        }
        L60: {
         if ((l29 = l29 & 255) + Integer.MIN_VALUE < -2147483424) { break L60; }
         l32 = (b[((int) l22) - 58911] & 0xff) & 63;
         l31 = (b[((int) l22) - 58910] & 0xff) & 63;
         L61: {
          L62: {
           if (l29 + Integer.MIN_VALUE > -2147483409) { break L62; }
           l29 = ((l32 << 6) | ((l29 << 12) & 61440)) | l31;
           break L61;
          }
          l29 = ((l31 << 6) | ((l32 << 12) | ((l29 << 18) & 1835008))) | ((b[((int) l22) - 58909] & 0xff) & 63);
         }
         if (l29 == 21495) { exit = 2; break PART; }
         if (l29 == 26085) { exit = 2; break PART; }
         if (l29 == 34399) { exit = 2; break PART; }
        }
        l22 = -2L;
        if (l30 + Integer.MIN_VALUE > -2147483457) { break L57; }
       }
       l22 = ((b[((int) l15) - 58912] & 0xff) + Integer.MIN_VALUE > -2147483457) ? -3L : -4L;
      }
      if ((l30 = (int) b[((int) (l22 = l1 + (l23 = l22 + l2))) - 58912]) > -1) { break L56; }
      if (l30 + Integer.MIN_VALUE < 2147483616) { break L56; }
      l29 = l30 & 255;
      l32 = (b[((int) l22) - 58911] & 0xff) & 63;
      l31 = (b[((int) l22) - 58910] & 0xff) & 63;
      L63: {
       L64: {
        if (l30 + Integer.MIN_VALUE > 2147483631) { break L64; }
        l30 = ((l32 << 6) | ((l29 << 12) & 61440)) | l31;
        break L63;
       }
       l30 = ((l31 << 6) | ((l32 << 12) | ((l29 << 18) & 1835008))) | ((b[((int) l22) - 58909] & 0xff) & 63);
      }
      if (l23 == 0L) { break L56; }
      if (l30 != 22825) { break L56; }
      if (((int) b[((int) (l22 + -1L)) - 58912]) > -1) { break L56; }
      l24 = -2L;
      L65: {
       if ((b[((int) (l22 + -2L)) - 58912] & 0xff) + Integer.MIN_VALUE > -2147483457) { break L65; }
       l24 = ((b[((int) (l22 + -3L)) - 58912] & 0xff) + Integer.MIN_VALUE > -2147483457) ? -3L : -4L;
      }
      if ((l30 = (int) b[((int) (l22 = (l1 + l24) + l23)) - 58912]) > -1) { break L56; }
      if (l30 + Integer.MIN_VALUE < 2147483616) { break L56; }
      l29 = l30 & 255;
      l32 = (b[((int) l22) - 58911] & 0xff) & 63;
      l31 = (b[((int) l22) - 58910] & 0xff) & 63;
      L66: {
       L67: {
        if (l30 + Integer.MIN_VALUE > 2147483631) { break L67; }
        l30 = ((l32 << 6) | ((l29 << 12) & 61440)) | l31;
        break L66;
       }
       l30 = ((l31 << 6) | ((l32 << 12) | ((l29 << 18) & 1835008))) | ((b[((int) l22) - 58909] & 0xff) & 63);
      }
      L68: {
       if (l30 > 24459) { break L68; }
       L69: {
        if (l30 > 21517) { break L69; }
        if (l30 == 20170) { break L55; }
        if (l30 != 21069) { break L56; }
        break L55;
       }
       if (l30 == 21518) { break L55; }
       if (l30 != 24403) { break L56; }
       break L55;
      }
      L70: {
       if (l30 > 26151) { break L70; }
       if (l30 == 24460) { break L55; }
       if (l30 != 26126) { break L56; }
       break L55;
      }
      if (l30 == 26152) { break L55; }
      if (l30 == 27599) { break L55; }
      if (l30 == 30070) { break L55; }
     }
     L71: {
      if (Core5.f157(m, 85160L, 1L, 85164L, 1L, l20, l9) != 0) { break L71; }
      if (Core5.f157(m, 85168L, 4L, 85184L, 7L, l20, l9) != 0) { break L71; }
      if (l27 != 0) { break L54; }
      if ((l27 = (int) b[((int) l20) - 58912]) > -1) { break L54; }
      if (l27 + Integer.MIN_VALUE < 2147483616) { break L54; }
      l30 = l27 & 255;
      l29 = (b[((int) l20) - 58911] & 0xff) & 63;
      l32 = (b[((int) l20) - 58910] & 0xff) & 63;
      L72: {
       L73: {
        if (l27 + Integer.MIN_VALUE > 2147483631) { break L73; }
        l27 = ((l29 << 6) | ((l30 << 12) & 61440)) | l32;
        break L72;
       }
       l27 = ((l32 << 6) | ((l29 << 12) | ((l30 << 18) & 1835008))) | ((b[((int) l20) - 58909] & 0xff) & 63);
      }
      if (l27 != 21069) { break L54; }
      if (Core5.f157(m, 85212L, 1L, 85216L, 30L, l20, l9) != 0) { break L54; }
     }
     if (l28 != 0) { break L55; }
     if (((int) b[((int) l16) - 58912]) > -1) { break L55; }
     l22 = l14;
     L74: {
      if ((l27 = b[((int) l14) - 58912] & 0xff) + Integer.MIN_VALUE > -2147483457) { break L74; }
      if ((l27 = (int) b[((int) (l22 = l13 + (((b[((int) l15) - 58912] & 0xff) + Integer.MIN_VALUE > -2147483457) ? -3L : -4L))) - 58912]) > -1) { break L55; }
     }
     if ((l27 = l27 & 255) + Integer.MIN_VALUE < -2147483424) { break L55; }
     l30 = (b[((int) l22) - 58911] & 0xff) & 63;
     l29 = (b[((int) l22) - 58910] & 0xff) & 63;
     L75: {
      L76: {
       if (l27 + Integer.MIN_VALUE > -2147483409) { break L76; }
       l27 = ((l30 << 6) | ((l27 << 12) & 61440)) | l29;
       break L75;
      }
      l27 = ((l29 << 6) | ((l30 << 12) | ((l27 << 18) & 1835008))) | ((b[((int) l22) - 58909] & 0xff) & 63);
     }
     L77: {
      if (l27 > 26367) { break L77; }
      L78: {
       if (l27 > 21737) { break L78; }
       if (l27 == 19978) { break L54; }
       if (l27 == 20197) { break L54; }
       if (l27 != 20960) { break L55; }
       break L54;
      }
      if (l27 == 21738) { break L54; }
      if (l27 == 24046) { break L54; }
      if (l27 != 24190) { break L55; }
      break L54;
     }
     L79: {
      if (l27 > 36824) { break L79; }
      L80: {
       switch (l27 + -26368) {
       case 0: case 9: break L54;
       case 1: case 2: case 3: case 4: case 5: case 6: case 7: case 8: break L55;
       default: break L80;
       }
      }
      if (l27 == 27599) { break L54; }
      if (l27 != 31532) { break L55; }
      break L54;
     }
     if (l27 == 36825) { break L54; }
     if (l27 == 36889) { break L54; }
     if (l27 == 37027) { break L54; }
    }
    if ((l21 & 281470681743360L) != 4294967296L) { exit = 2; break PART; }
   }
   if (Core5.f158(m, 85128L, 7L, l1, l2) != 0) { exit = 2; break PART; }
   Words.put64(b, ((int) l8) - 58840, 0L);
   Words.put64(b, ((int) l8) - 58848, 0L);
   Words.put64(b, ((int) l8) - 58856, 0L);
   f134(m, l8 + 56L, 14, l20, l9);
   if ((b[((int) l8) - 58856] & 0xff) != 1) { exit = 1; break PART; }
   l22 = Words.get64(b, ((int) l8) - 58848);
   L81: {
    L82: {
     if ((l23 = Words.get64(b, ((int) l8) - 58840)) == 0L) { break L82; }
     l27 = (l30 = (int) b[((int) l22) - 58912]) & 255;
     L83: {
      if (l30 > -1) { break L83; }
      l29 = (b[((int) l22) - 58911] & 0xff) & 63;
      L84: {
       if (l30 + Integer.MIN_VALUE > 2147483615) { break L84; }
       l27 = ((l27 << 6) & 1984) | l29;
       break L83;
      }
      l28 = (b[((int) l22) - 58910] & 0xff) & 63;
      L85: {
       if (l30 + Integer.MIN_VALUE > 2147483631) { break L85; }
       l27 = ((l29 << 6) | ((l27 << 12) & 61440)) | l28;
       break L83;
      }
      l27 = ((l28 << 6) | ((l29 << 12) | ((l27 << 18) & 1835008))) | ((b[((int) l22) - 58909] & 0xff) & 63);
     }
     if (l27 == 32) { break L81; }
    }
    Words.put64(b, ((int) l8) - 58784, l23);
    Words.put64(b, ((int) l8) - 58792, l22);
    Words.put64(b, ((int) l8) - 58800, 0L);
    Words.put64(b, ((int) l8) - 58808, 0L);
    Words.put64(b, ((int) l8) - 58816, 0L);
    Words.put64(b, ((int) l8) - 58824, 0L);
    Words.put64(b, ((int) l8) - 58832, 0L);
    Core5.f156(m, l8 + 80L, 0, 4, l8 + 112L);
    if ((b[((int) l8) - 58832] & 0xff) != 1) { break L81; }
    Words.put64(b, ((int) l8) - 58784, l24 = Words.get64(b, ((int) l18) - 58896));
    Words.put64(b, ((int) l8) - 58792, l25 = Words.get64(b, ((int) l18) - 58904));
    Words.put64(b, ((int) l8) - 58800, Words.get64(b, ((int) l18) - 58912));
    Words.put64(b, ((int) l8) - 58776, 0L);
    Words.put64(b, ((int) l8) - 58768, 0L);
    Words.put64(b, ((int) l8) - 58760, 0L);
    f132(m, l8 + 40L, (b[((int) l8) - 58794] & 0xff) & 1, l25, l24);
    f134(m, l8 + 136L, 4, Words.get64(b, ((int) l8) - 58872), Words.get64(b, ((int) l8) - 58864));
    if ((b[((int) l8) - 58776] & 0xff) == 1) { exit = 2; break PART; }
   }
   Words.put64(b, ((int) l8) - 58816, 0L);
   Words.put64(b, ((int) l8) - 58824, 0L);
   Words.put64(b, ((int) l8) - 58832, 0L);
   f134(m, l8 + 80L, 21, l22, l23);
   L86: {
    if ((b[((int) l8) - 58832] & 0xff) != 1) { break L86; }
    l24 = Words.get64(b, ((int) l8) - 58824);
    Words.put64(b, ((int) l8) - 58784, Words.get64(b, ((int) l8) - 58816));
    Words.put64(b, ((int) l8) - 58792, l24);
    Words.put64(b, ((int) l8) - 58800, 0L);
    Words.put64(b, ((int) l8) - 58808, 0L);
    Words.put64(b, ((int) l8) - 58816, 0L);
    Words.put64(b, ((int) l8) - 58824, 0L);
    Words.put64(b, ((int) l8) - 58832, 0L);
    Core5.f156(m, l8 + 80L, 0, 4, l8 + 112L);
    if ((b[((int) l8) - 58832] & 0xff) != 1) { break L86; }
    Words.put64(b, ((int) l8) - 58784, l24 = Words.get64(b, ((int) l18) - 58896));
    Words.put64(b, ((int) l8) - 58792, l25 = Words.get64(b, ((int) l18) - 58904));
    Words.put64(b, ((int) l8) - 58800, Words.get64(b, ((int) l18) - 58912));
    Words.put64(b, ((int) l8) - 58776, 0L);
    Words.put64(b, ((int) l8) - 58768, 0L);
    Words.put64(b, ((int) l8) - 58760, 0L);
    f132(m, l8 + 24L, (b[((int) l8) - 58794] & 0xff) & 1, l25, l24);
    f134(m, l8 + 136L, 4, Words.get64(b, ((int) l8) - 58888), Words.get64(b, ((int) l8) - 58880));
    if ((b[((int) l8) - 58776] & 0xff) == 1) { exit = 2; break PART; }
   }
   Words.put64(b, ((int) l8) - 58816, 0L);
   Words.put64(b, ((int) l8) - 58824, 0L);
   Words.put64(b, ((int) l8) - 58832, 0L);
   f134(m, l8 + 80L, 22, l22, l23);
   if ((b[((int) l8) - 58832] & 0xff) != 1) { exit = 1; break PART; }
   l22 = Words.get64(b, ((int) l8) - 58824);
   Words.put64(b, ((int) l8) - 58784, Words.get64(b, ((int) l8) - 58816));
   Words.put64(b, ((int) l8) - 58792, l22);
   Words.put64(b, ((int) l8) - 58800, 0L);
   Words.put64(b, ((int) l8) - 58808, 0L);
   Words.put64(b, ((int) l8) - 58816, 0L);
   Words.put64(b, ((int) l8) - 58824, 0L);
   Words.put64(b, ((int) l8) - 58832, 0L);
   Core5.f156(m, l8 + 80L, 0, 4, l8 + 112L);
   if ((b[((int) l8) - 58832] & 0xff) != 1) { exit = 1; break PART; }
   Words.put64(b, ((int) l8) - 58784, l22 = Words.get64(b, ((int) l18) - 58896));
   Words.put64(b, ((int) l8) - 58792, l23 = Words.get64(b, ((int) l18) - 58904));
   Words.put64(b, ((int) l8) - 58800, Words.get64(b, ((int) l18) - 58912));
   Words.put64(b, ((int) l8) - 58776, 0L);
   Words.put64(b, ((int) l8) - 58768, 0L);
   Words.put64(b, ((int) l8) - 58760, 0L);
   f132(m, l8 + 8L, (b[((int) l8) - 58794] & 0xff) & 1, l23, l22);
   f134(m, l8 + 136L, 4, Words.get64(b, ((int) l8) - 58904), Words.get64(b, ((int) l8) - 58896));
   if ((b[((int) l8) - 58776] & 0xff) == 1) { exit = 2; break PART; }
   exit = 1; break PART;
  }
 }
 m.kept[0] = l22;
 m.kept[1] = l23;
 m.kept[2] = l24;
 m.kept[3] = l25;
 m.kept[4] = l27;
 m.kept[5] = l28;
 m.kept[6] = l29;
 m.kept[7] = l30;
 m.kept[8] = l31;
 m.kept[9] = l32;
 return exit;
}

static void f133(State m, long l0, long l1, long l2, long l3, long l4, int l5, long l6, long l7) {
 final byte[] b = m.bytes;
 long l8 = 0;
 long l9 = 0;
 long l10 = 0;
 long l11 = 0;
 long l12 = 0;
 long l13 = 0;
 long l14 = 0;
 long l15 = 0;
 long l16 = 0;
 long l17 = 0;
 long l18 = 0;
 long l19 = 0;
 long l20 = 0;
 long l21 = 0;
 long l22 = 0;
 long l23 = 0;
 long l24 = 0;
 long l25 = 0;
 int l26 = 0;
 int l27 = 0;
 int l28 = 0;
 int l29 = 0;
 int l30 = 0;
 int l31 = 0;
 int l32 = 0;
 int l33 = 0;
 int l34 = 0;
 m.g0 = l8 = m.g0 - 160L;
 L1: {
  if ((l8 = l8) < 16L) { break L1; }
  L2: {
   L3: {
    if (!(l7 == 0L)) { break L3; }
    l9 = 0L;
    l10 = 0L;
    l11 = 0L;
    l12 = 0L;
    break L2;
   }
   l14 = (l13 = l1 + l2) + -2L;
   l15 = l13 + -3L;
   l16 = l13 + -1L;
   l17 = (l5 & 0xffffffffL) & 255L;
   l18 = l8 + 88L;
   l26 = 0;
   l12 = 0L;
   l11 = 0L;
   l10 = 0L;
   L4: while (true) {
    l27 = b[((int) (l6 + (l7 = l7 + -1L))) - 58912] & 0xff;
    Words.put64(b, ((int) l8) - 58784, 0L);
    Words.put64(b, ((int) l8) - 58792, 0L);
    Words.put64(b, ((int) l8) - 58800, 0L);
    Core5.f155(m, l8 + 112L, l5, l3, l4);
    L5: {
     if ((b[((int) l8) - 58800] & 0xff) != 1) { break L5; }
     l9 = Words.get64(b, ((int) l8) - 58792);
     Words.put64(b, ((int) l8) - 58760, Words.get64(b, ((int) l8) - 58784));
     Words.put64(b, ((int) l8) - 58768, l9);
     Words.put64(b, ((int) l8) - 58776, 0L);
     Words.put64(b, ((int) l8) - 58808, 0L);
     Words.put64(b, ((int) l8) - 58816, 0L);
     Words.put64(b, ((int) l8) - 58824, 0L);
     Words.put64(b, ((int) l8) - 58832, 0L);
     l9 = Words.get64(b, State.far((int) (l20 = (l19 = l27 & 0xffffffffL) << 3L), 102544));
     l20 = Words.get64(b, State.far((int) l20, 102288));
     L6: while (true) {
      Core5.f156(m, l8 + 80L, b[((int) l9) - 58912] & 0xff, b[((int) (l9 + 1L)) - 58912] & 0xff, l8 + 136L);
      if ((b[((int) l8) - 58832] & 0xff) != 1) { break L5; }
      Words.put64(b, ((int) l8) - 58760, Words.get64(b, ((int) l18) - 58896));
      Words.put64(b, ((int) l8) - 58768, Words.get64(b, ((int) l18) - 58904));
      Words.put64(b, ((int) l8) - 58776, Words.get64(b, ((int) l18) - 58912));
      l9 = l9 + 2L;
      if (!((l20 = l20 + -1L) == 0L)) { continue L6; }
      break L6;
     }
     l9 = Words.get64(b, ((int) l8) - 58808);
     l20 = Words.get64(b, ((int) l8) - 58816);
     l21 = Words.get64(b, ((int) l8) - 58824);
     L7: {
      if ((l5 & 255) != 0) { break L7; }
      L8: {
       if ((l28 = (l2 == 0L) ? 1 : 0) != 0) { break L8; }
       L9: {
        L10: {
         L11: {
          if ((l29 = (int) b[((int) l16) - 58912]) > -1) { break L11; }
          l31 = l30 = b[((int) l14) - 58912] & 0xff;
          l22 = l14;
          l32 = l30;
          L12: {
           L13: {
            L14: {
             L15: {
              if (l30 + Integer.MIN_VALUE >= -2147483456) { break L15; }
              if ((l32 = (int) (byte) (l31 = b[((int) (l22 = l13 + (((b[((int) l15) - 58912] & 0xff) + Integer.MIN_VALUE > -2147483457) ? -3L : -4L))) - 58912] & 0xff)) > -1) { break L14; }
             }
             l33 = (b[((int) l22) - 58911] & 0xff) & 63;
             L16: {
              L17: {
               if ((l32 = l32 & 255) + Integer.MIN_VALUE > -2147483425) { break L17; }
               l32 = ((l31 << 6) & 1984) | l33;
               break L16;
              }
              l34 = (b[((int) l22) - 58910] & 0xff) & 63;
              L18: {
               if (l32 + Integer.MIN_VALUE > -2147483409) { break L18; }
               l32 = ((l33 << 6) | ((l31 << 12) & 61440)) | l34;
               break L16;
              }
              l32 = ((l34 << 6) | ((l33 << 12) | ((l31 << 18) & 1835008))) | ((b[((int) l22) - 58909] & 0xff) & 63);
             }
             if (l32 == 95) { break L5; }
             if (((l32 & 2097119) + -65) + Integer.MIN_VALUE < -2147483622) { break L5; }
             l22 = l14;
             l32 = l30;
             if (l30 + Integer.MIN_VALUE < -2147483456) { break L13; }
             break L12;
            }
            if (l32 == 95) { break L5; }
            if (((l31 & 95) + -65) + Integer.MIN_VALUE < -2147483622) { break L5; }
           }
           if ((l32 = (int) (byte) (l30 = b[((int) (l22 = l13 + (((b[((int) l15) - 58912] & 0xff) + Integer.MIN_VALUE > -2147483457) ? -3L : -4L))) - 58912] & 0xff)) > -1) { break L9; }
          }
          l31 = (b[((int) l22) - 58911] & 0xff) & 63;
          if ((l32 = l32 & 255) + Integer.MIN_VALUE > -2147483425) { break L10; }
          l30 = ((l30 << 6) & 1984) | l31;
          break L9;
         }
         if (l29 == 95) { break L5; }
         l30 = l29;
         if ((((l29 & 95) + -65) & 255) + Integer.MIN_VALUE >= -2147483622) { break L9; }
         break L5;
        }
        l33 = (b[((int) l22) - 58910] & 0xff) & 63;
        L19: {
         if (l32 + Integer.MIN_VALUE > -2147483409) { break L19; }
         l30 = ((l31 << 6) | ((l30 << 12) & 61440)) | l33;
         break L9;
        }
        l30 = ((l33 << 6) | ((l31 << 12) | ((l30 << 18) & 1835008))) | ((b[((int) l22) - 58909] & 0xff) & 63);
       }
       L20: {
        if ((l30 + -48) + Integer.MIN_VALUE < -2147483638) { break L20; }
        if ((l30 + -65296) + Integer.MIN_VALUE < -2147483638) { break L20; }
        L21: {
         L22: {
          if (l30 > 20190) { break L22; }
          L23: {
           if (l30 > 20060) { break L23; }
           if ((l32 = l30 + -19968) + Integer.MIN_VALUE > -2147483612) { break L21; }
           if (((1L << (l32 & 0xffffffffL)) & 68719477385L) == 0L) { break L21; }
           break L20;
          }
          L24: {
           switch (l30 + -20108) {
           case 0: case 8: break L20;
           case 1: case 2: case 3: case 4: case 5: case 6: case 7: break L8;
           default: break L24;
           }
          }
          if (l30 == 20061) { break L20; }
          if (l30 == 20159) { break L20; }
          break L8;
         }
         L25: {
          L26: {
           L27: {
            if (l30 > 21312) { break L27; }
            if ((l32 = l30 + -20841) + Integer.MIN_VALUE <= -2147483644) { break L26; }
            break L25;
           }
           L28: {
            L29: {
             if (l30 > 30333) { break L29; }
             switch (l30 + -21313) {
             case 0: case 2: break L20;
             case 1: break L8;
             default: break L28;
             }
            }
            if (l30 == 30334) { break L20; }
            if (l30 == 38646) { break L20; }
            if (l30 != 33836) { break L8; }
            break L20;
           }
           if (l30 == 22235) { break L20; }
           break L8;
          }
          if (((1 << l32) & 21) != 0) { break L20; }
         }
         if (l30 == 20191) { break L20; }
         if (l30 == 20740) { break L20; }
         break L8;
        }
        if (l30 != 12295) { break L8; }
       }
       if (l29 > -1) { break L5; }
       l22 = -2L;
       L30: {
        if ((b[((int) l14) - 58912] & 0xff) + Integer.MIN_VALUE > -2147483457) { break L30; }
        l22 = ((b[((int) l15) - 58912] & 0xff) + Integer.MIN_VALUE > -2147483457) ? -3L : -4L;
       }
       if ((l30 = (int) b[((int) (l22 = l1 + (l23 = l22 + l2))) - 58912]) > -1) { break L5; }
       if (l30 + Integer.MIN_VALUE < 2147483616) { break L5; }
       l29 = l30 & 255;
       l32 = (b[((int) l22) - 58911] & 0xff) & 63;
       l31 = (b[((int) l22) - 58910] & 0xff) & 63;
       L31: {
        L32: {
         if (l30 + Integer.MIN_VALUE > 2147483631) { break L32; }
         l30 = ((l32 << 6) | ((l29 << 12) & 61440)) | l31;
         break L31;
        }
        l30 = ((l31 << 6) | ((l32 << 12) | ((l29 << 18) & 1835008))) | ((b[((int) l22) - 58909] & 0xff) & 63);
       }
       L33: {
        L34: {
         if (l30 > 20844) { break L34; }
         L35: {
          switch (l30 + -19968) {
          case 0: case 9: break L33;
          case 1: case 2: case 3: case 4: case 5: case 6: case 7: case 8: break L5;
          default: break L35;
          }
         }
         switch (l30 + -20108) {
         case 0: case 8: break L33;
         default: break L5;
         }
        }
        if (l30 == 22235) { break L33; }
        if (l30 != 20845) { break L5; }
       }
       if (f144(m, l1, l23) == 0) { break L5; }
      }
      if (f144(m, l1, l2) != 0) { break L5; }
      l22 = 84980L;
      l23 = 4L;
      l29 = 0;
      L36: {
       L37: {
        L38: {
         L39: {
          L40: {
           L41: {
            switch (l27) {
            case 3: break L36;
            case 4: break L41;
            case 5: case 6: break L40;
            case 20: case 21: break L39;
            case 31: break L38;
            default: break L37;
            }
           }
           l22 = 84996L;
           l23 = 10L;
           break L36;
          }
          l22 = 85036L;
          l23 = 3L;
          break L36;
         }
         l22 = 85048L;
         l23 = 5L;
         break L36;
        }
        l22 = 85068L;
        l23 = 11L;
        break L36;
       }
       l22 = 83372L;
       l23 = 0L;
       l29 = 1;
      }
      L42: {
       if (l28 != 0) { break L42; }
       L43: {
        if ((l30 = (int) b[((int) l16) - 58912]) >= 0) { break L43; }
        l24 = l14;
        l32 = l30 = b[((int) l14) - 58912] & 0xff;
        L44: {
         if (l30 + Integer.MIN_VALUE >= -2147483456) { break L44; }
         if ((l32 = (int) (byte) (l30 = b[((int) (l24 = l13 + (((b[((int) l15) - 58912] & 0xff) + Integer.MIN_VALUE > -2147483457) ? -3L : -4L))) - 58912] & 0xff)) > -1) { break L43; }
        }
        l31 = (b[((int) l24) - 58911] & 0xff) & 63;
        L45: {
         if ((l32 = l32 & 255) + Integer.MIN_VALUE > -2147483425) { break L45; }
         l30 = ((l30 << 6) & 1984) | l31;
         break L43;
        }
        l33 = (b[((int) l24) - 58910] & 0xff) & 63;
        L46: {
         if (l32 + Integer.MIN_VALUE > -2147483409) { break L46; }
         l30 = ((l31 << 6) | ((l30 << 12) & 61440)) | l33;
         break L43;
        }
        l30 = ((l33 << 6) | ((l31 << 12) | ((l30 << 18) & 1835008))) | ((b[((int) l24) - 58909] & 0xff) & 63);
       }
       if (l29 != 0) { break L42; }
       L47: while (true) {
        if (Words.get32(b, ((int) l22) - 58912) == l30) { break L5; }
        l22 = l22 + 4L;
        if ((l23 = l23 + -1L) != 0L) { continue L47; }
        break L47;
       }
      }
      final int x87 = f133_1(m, l1, l2, l8, l9, l13, l14, l15, l16, l18, l20, l21, l22, l23, l24, l25, l27, l28, l29, l30, l31, l32);
      l22 = m.kept[0];
      l23 = m.kept[1];
      l24 = m.kept[2];
      l25 = m.kept[3];
      l27 = (int) m.kept[4];
      l28 = (int) m.kept[5];
      l29 = (int) m.kept[6];
      l30 = (int) m.kept[7];
      l31 = (int) m.kept[8];
      l32 = (int) m.kept[9];
      switch (x87) {
      case 1: break L5;
      case 2: break L7;
      }
      if (Core5.f158(m, 85112L, 4L, l1, l2) == 0) { break L5; }
     }
     l19 = ((l21 << 16L) | (l19 << 8L)) | l17;
     l27 = l26 & 255;
     l26 = 1;
     L88: {
      if (l27 != 0) { break L88; }
      l10 = l19;
      l11 = l20;
      l12 = l9;
      break L5;
     }
     l12 = ((l27 = (l12 + Long.MIN_VALUE < l9 + Long.MIN_VALUE) ? 1 : 0) != 0) ? l12 : l9;
     l11 = l27 != 0 ? l11 : l20;
     l10 = l27 != 0 ? l10 : l19;
    }
    if (l7 != 0L) { continue L4; }
    break L4;
   }
   l9 = (l26 & 0xffffffffL) & 255L;
  }
  Words.put64(b, ((int) l0) - 58912, l9);
  Words.put64(b, ((int) (l0 + 24L)) - 58912, l12);
  Words.put64(b, ((int) (l0 + 16L)) - 58912, l11);
  Words.put64(b, ((int) (l0 + 8L)) - 58912, l10);
  m.g0 = l8 + 160L;
  return;
 }
 throw State.trap();
}

static int f134_1(State m, int l1, long l2, long l3, long l4, long l5, long l6, int l9, int l10, int l11) {
 final byte[] b = m.bytes;
 int exit = 0;
 PART: {
  L14: {
   L15: {
    L16: {
     L17: {
      L18: {
       L19: {
        L20: {
         L21: {
          L22: {
           L23: {
            L24: {
             L25: {
              L26: {
               L27: {
                switch ((int) ((l1 & 0xffffffffL) & 255L)) {
                case 1: break L26;
                case 2: break L25;
                case 3: break L24;
                case 4: break L23;
                case 5: break L22;
                case 6: break L21;
                case 7: break L20;
                case 8: break L19;
                case 9: break L18;
                case 10: break L17;
                case 11: break L16;
                case 12: break L15;
                case 13: break L14;
                case 14: exit = 1; break PART;
                case 15: exit = 2; break PART;
                case 16: exit = 3; break PART;
                case 17: exit = 4; break PART;
                case 18: exit = 5; break PART;
                case 19: exit = 6; break PART;
                case 20: exit = 7; break PART;
                case 21: exit = 8; break PART;
                case 22: exit = 9; break PART;
                default: break L27;
                }
               }
               if (l3 == 0L) { exit = 10; break PART; }
               L28: {
                L29: {
                 if ((l1 = (int) b[((int) l2) - 58912]) > -1) { break L29; }
                 if (l1 + Integer.MIN_VALUE < 2147483616) { break L29; }
                 l9 = l1 & 255;
                 l10 = (b[((int) l2) - 58911] & 0xff) & 63;
                 l11 = (b[((int) l2) - 58910] & 0xff) & 63;
                 L30: {
                  L31: {
                   if (l1 + Integer.MIN_VALUE > 2147483631) { break L31; }
                   l1 = ((l10 << 6) | ((l9 << 12) & 61440)) | l11;
                   l5 = 3L;
                   break L30;
                  }
                  l1 = ((l11 << 6) | ((l10 << 12) | ((l9 << 18) & 1835008))) | ((b[((int) l2) - 58909] & 0xff) & 63);
                  l5 = 4L;
                 }
                 if (l1 != 24180) { break L29; }
                 l3 = l3 - l5;
                 l2 = l2 + l5;
                 l5 = 1L;
                 break L28;
                }
                l2 = 0L;
                l3 = 0L;
                l5 = 0L;
               }
               Words.put64(b, ((int) l4) - 58864, l3);
               Words.put64(b, ((int) l4) - 58872, l2);
               Words.put64(b, ((int) l4) - 58880, l5);
               exit = 10; break PART;
              }
              if (l3 == 0L) { exit = 10; break PART; }
              L32: {
               L33: {
                if ((l1 = (int) b[((int) l2) - 58912]) > -1) { break L33; }
                if (l1 + Integer.MIN_VALUE < 2147483616) { break L33; }
                l9 = l1 & 255;
                l10 = (b[((int) l2) - 58911] & 0xff) & 63;
                l11 = (b[((int) l2) - 58910] & 0xff) & 63;
                L34: {
                 L35: {
                  if (l1 + Integer.MIN_VALUE > 2147483631) { break L35; }
                  l1 = ((l10 << 6) | ((l9 << 12) & 61440)) | l11;
                  l5 = 3L;
                  break L34;
                 }
                 l1 = ((l11 << 6) | ((l10 << 12) | ((l9 << 18) & 1835008))) | ((b[((int) l2) - 58909] & 0xff) & 63);
                 l5 = 4L;
                }
                if (l1 != 26376) { break L33; }
                l3 = l3 - l5;
                l2 = l2 + l5;
                l5 = 1L;
                break L32;
               }
               l2 = 0L;
               l3 = 0L;
               l5 = 0L;
              }
              Words.put64(b, ((int) l4) - 58864, l3);
              Words.put64(b, ((int) l4) - 58872, l2);
              Words.put64(b, ((int) l4) - 58880, l5);
              exit = 10; break PART;
             }
             if (l3 == 0L) { exit = 10; break PART; }
             L36: {
              L37: {
               if ((l1 = (int) b[((int) l2) - 58912]) > -1) { break L37; }
               if (l1 + Integer.MIN_VALUE < 2147483616) { break L37; }
               l9 = l1 & 255;
               l10 = (b[((int) l2) - 58911] & 0xff) & 63;
               l11 = (b[((int) l2) - 58910] & 0xff) & 63;
               L38: {
                L39: {
                 if (l1 + Integer.MIN_VALUE > 2147483631) { break L39; }
                 l1 = ((l10 << 6) | ((l9 << 12) & 61440)) | l11;
                 l5 = 3L;
                 break L38;
                }
                l1 = ((l11 << 6) | ((l10 << 12) | ((l9 << 18) & 1835008))) | ((b[((int) l2) - 58909] & 0xff) & 63);
                l5 = 4L;
               }
               l3 = l3 - l5;
               l2 = l2 + l5;
               l5 = 1L;
               if (l1 == 21495) { break L36; }
               if (l1 == 26085) { break L36; }
               if (l1 == 34399) { break L36; }
              }
              l2 = 0L;
              l3 = 0L;
              l5 = 0L;
             }
             Words.put64(b, ((int) l4) - 58864, l3);
             Words.put64(b, ((int) l4) - 58872, l2);
             Words.put64(b, ((int) l4) - 58880, l5);
             exit = 10; break PART;
            }
            if (l3 == 0L) { exit = 10; break PART; }
            L40: {
             L41: {
              if ((l1 = (int) b[((int) l2) - 58912]) > -1) { break L41; }
              if (l1 + Integer.MIN_VALUE < 2147483616) { break L41; }
              l9 = l1 & 255;
              l10 = (b[((int) l2) - 58911] & 0xff) & 63;
              l11 = (b[((int) l2) - 58910] & 0xff) & 63;
              L42: {
               L43: {
                if (l1 + Integer.MIN_VALUE > 2147483631) { break L43; }
                l1 = ((l10 << 6) | ((l9 << 12) & 61440)) | l11;
                l5 = 3L;
                break L42;
               }
               l1 = ((l11 << 6) | ((l10 << 12) | ((l9 << 18) & 1835008))) | ((b[((int) l2) - 58909] & 0xff) & 63);
               l5 = 4L;
              }
              l3 = l3 - l5;
              l2 = l2 + l5;
              l5 = 1L;
              if (l1 == 28857) { break L40; }
              if (l1 == 40670) { break L40; }
             }
             l2 = 0L;
             l3 = 0L;
             l5 = 0L;
            }
            Words.put64(b, ((int) l4) - 58864, l3);
            Words.put64(b, ((int) l4) - 58872, l2);
            Words.put64(b, ((int) l4) - 58880, l5);
            exit = 10; break PART;
           }
           if (l3 == 0L) { exit = 10; break PART; }
           L44: {
            L45: {
             if ((l1 = (int) b[((int) l2) - 58912]) > -1) { break L45; }
             if (l1 + Integer.MIN_VALUE < 2147483616) { break L45; }
             l9 = l1 & 255;
             l10 = (b[((int) l2) - 58911] & 0xff) & 63;
             l11 = (b[((int) l2) - 58910] & 0xff) & 63;
             L46: {
              L47: {
               if (l1 + Integer.MIN_VALUE > 2147483631) { break L47; }
               l1 = ((l10 << 6) | ((l9 << 12) & 61440)) | l11;
               l5 = 3L;
               break L46;
              }
              l1 = ((l11 << 6) | ((l10 << 12) | ((l9 << 18) & 1835008))) | ((b[((int) l2) - 58909] & 0xff) & 63);
              l5 = 4L;
             }
             l3 = l3 - l5;
             l2 = l2 + l5;
             l5 = 1L;
             L48: {
              if (l1 > 28856) { break L48; }
              if (l1 == 26102) { break L44; }
              if (l1 != 26178) { break L45; }
              break L44;
             }
             if (l1 == 28857) { break L44; }
             if (l1 == 40670) { break L44; }
            }
            l2 = 0L;
            l3 = 0L;
            l5 = 0L;
           }
           Words.put64(b, ((int) l4) - 58864, l3);
           Words.put64(b, ((int) l4) - 58872, l2);
           Words.put64(b, ((int) l4) - 58880, l5);
           exit = 10; break PART;
          }
          if (l3 == 0L) { exit = 10; break PART; }
          L49: {
           L50: {
            if ((l1 = (int) b[((int) l2) - 58912]) > -1) { break L50; }
            if (l1 + Integer.MIN_VALUE < 2147483616) { break L50; }
            l9 = l1 & 255;
            l10 = (b[((int) l2) - 58911] & 0xff) & 63;
            l11 = (b[((int) l2) - 58910] & 0xff) & 63;
            L51: {
             L52: {
              if (l1 + Integer.MIN_VALUE > 2147483631) { break L52; }
              l1 = ((l10 << 6) | ((l9 << 12) & 61440)) | l11;
              l5 = 3L;
              break L51;
             }
             l1 = ((l11 << 6) | ((l10 << 12) | ((l9 << 18) & 1835008))) | ((b[((int) l2) - 58909] & 0xff) & 63);
             l5 = 4L;
            }
            if (l1 != 20998) { break L50; }
            l3 = l3 - l5;
            l2 = l2 + l5;
            l5 = 1L;
            break L49;
           }
           l2 = 0L;
           l3 = 0L;
           l5 = 0L;
          }
          Words.put64(b, ((int) l4) - 58864, l3);
          Words.put64(b, ((int) l4) - 58872, l2);
          Words.put64(b, ((int) l4) - 58880, l5);
          exit = 10; break PART;
         }
         if (l3 == 0L) { exit = 10; break PART; }
         L53: {
          L54: {
           if ((l1 = (int) b[((int) l2) - 58912]) > -1) { break L54; }
           if (l1 + Integer.MIN_VALUE < 2147483616) { break L54; }
           l9 = l1 & 255;
           l10 = (b[((int) l2) - 58911] & 0xff) & 63;
           l11 = (b[((int) l2) - 58910] & 0xff) & 63;
           L55: {
            L56: {
             if (l1 + Integer.MIN_VALUE > 2147483631) { break L56; }
             l1 = ((l10 << 6) | ((l9 << 12) & 61440)) | l11;
             l5 = 3L;
             break L55;
            }
            l1 = ((l11 << 6) | ((l10 << 12) | ((l9 << 18) & 1835008))) | ((b[((int) l2) - 58909] & 0xff) & 63);
            l5 = 4L;
           }
           if (l1 != 31186) { break L54; }
           l3 = l3 - l5;
           l2 = l2 + l5;
           l5 = 1L;
           break L53;
          }
          l2 = 0L;
          l3 = 0L;
          l5 = 0L;
         }
         Words.put64(b, ((int) l4) - 58864, l3);
         Words.put64(b, ((int) l4) - 58872, l2);
         Words.put64(b, ((int) l4) - 58880, l5);
         exit = 10; break PART;
        }
        if (l3 == 0L) { exit = 10; break PART; }
        L57: {
         L58: {
          if ((l1 = (int) b[((int) l2) - 58912]) > -1) { break L58; }
          if (l1 + Integer.MIN_VALUE < 2147483616) { break L58; }
          l9 = l1 & 255;
          l10 = (b[((int) l2) - 58911] & 0xff) & 63;
          l11 = (b[((int) l2) - 58910] & 0xff) & 63;
          L59: {
           L60: {
            if (l1 + Integer.MIN_VALUE > 2147483631) { break L60; }
            l1 = ((l10 << 6) | ((l9 << 12) & 61440)) | l11;
            l5 = 3L;
            break L59;
           }
           l1 = ((l11 << 6) | ((l10 << 12) | ((l9 << 18) & 1835008))) | ((b[((int) l2) - 58909] & 0xff) & 63);
           l5 = 4L;
          }
          if (l1 != 21322) { break L58; }
          l3 = l3 - l5;
          l2 = l2 + l5;
          l5 = 1L;
          break L57;
         }
         l2 = 0L;
         l3 = 0L;
         l5 = 0L;
        }
        Words.put64(b, ((int) l4) - 58864, l3);
        Words.put64(b, ((int) l4) - 58872, l2);
        Words.put64(b, ((int) l4) - 58880, l5);
        exit = 10; break PART;
       }
       if (l3 == 0L) { exit = 10; break PART; }
       L61: {
        L62: {
         if ((l1 = (int) b[((int) l2) - 58912]) > -1) { break L62; }
         if (l1 + Integer.MIN_VALUE < 2147483616) { break L62; }
         l9 = l1 & 255;
         l10 = (b[((int) l2) - 58911] & 0xff) & 63;
         l11 = (b[((int) l2) - 58910] & 0xff) & 63;
         L63: {
          L64: {
           if (l1 + Integer.MIN_VALUE > 2147483631) { break L64; }
           l1 = ((l10 << 6) | ((l9 << 12) & 61440)) | l11;
           l5 = 3L;
           break L63;
          }
          l1 = ((l11 << 6) | ((l10 << 12) | ((l9 << 18) & 1835008))) | ((b[((int) l2) - 58909] & 0xff) & 63);
          l5 = 4L;
         }
         if (l1 != 21051) { break L62; }
         l3 = l3 - l5;
         l2 = l2 + l5;
         l5 = 1L;
         break L61;
        }
        l2 = 0L;
        l3 = 0L;
        l5 = 0L;
       }
       Words.put64(b, ((int) l4) - 58864, l3);
       Words.put64(b, ((int) l4) - 58872, l2);
       Words.put64(b, ((int) l4) - 58880, l5);
       exit = 10; break PART;
      }
      if (l3 == 0L) { exit = 10; break PART; }
      l1 = (l9 = (int) b[((int) l2) - 58912]) & 255;
      l6 = 1L;
      L65: {
       L66: {
        if (l9 <= -1) { break L66; }
        l5 = 1L;
        break L65;
       }
       l10 = (b[((int) l2) - 58911] & 0xff) & 63;
       L67: {
        if (l9 + Integer.MIN_VALUE > 2147483615) { break L67; }
        l1 = ((l1 << 6) & 1984) | l10;
        l5 = 2L;
        break L65;
       }
       l11 = (b[((int) l2) - 58910] & 0xff) & 63;
       L68: {
        if (l9 + Integer.MIN_VALUE > 2147483631) { break L68; }
        l1 = ((l10 << 6) | ((l1 << 12) & 61440)) | l11;
        l5 = 3L;
        break L65;
       }
       l1 = ((l11 << 6) | ((l10 << 12) | ((l1 << 18) & 1835008))) | ((b[((int) l2) - 58909] & 0xff) & 63);
       l5 = 4L;
      }
      l3 = l3 - l5;
      l2 = l2 + l5;
      L69: {
       if (l1 == 58) { break L69; }
       if (l1 == 65306) { break L69; }
       l6 = 0L;
       l2 = 0L;
       l3 = 0L;
      }
      Words.put64(b, ((int) l4) - 58864, l3);
      Words.put64(b, ((int) l4) - 58872, l2);
      Words.put64(b, ((int) l4) - 58880, l6);
      exit = 10; break PART;
     }
     if (l3 == 0L) { exit = 10; break PART; }
     l1 = (l9 = (int) b[((int) l2) - 58912]) & 255;
     l5 = 1L;
     L70: {
      if (l9 > -1) { break L70; }
      l10 = (b[((int) l2) - 58911] & 0xff) & 63;
      L71: {
       if (l9 + Integer.MIN_VALUE > 2147483615) { break L71; }
       l1 = ((l1 << 6) & 1984) | l10;
       l5 = 2L;
       break L70;
      }
      l11 = (b[((int) l2) - 58910] & 0xff) & 63;
      L72: {
       if (l9 + Integer.MIN_VALUE > 2147483631) { break L72; }
       l1 = ((l10 << 6) | ((l1 << 12) & 61440)) | l11;
       l5 = 3L;
       break L70;
      }
      l1 = ((l11 << 6) | ((l10 << 12) | ((l1 << 18) & 1835008))) | ((b[((int) l2) - 58909] & 0xff) & 63);
      l5 = 4L;
     }
     final int t73 = (int) l4;
     final long t74 = l3 - l5;
     final int t75 = l1 = (l1 == 45) ? 1 : 0;
     Words.put64(b, t73 - 58864, t75 != 0 ? t74 : 0L);
     final int t76 = (int) l4;
     final long t77 = l2 + l5;
     final int t78 = l1;
     Words.put64(b, t76 - 58872, t78 != 0 ? t77 : 0L);
     Words.put64(b, ((int) l4) - 58880, l1 & 0xffffffffL);
     exit = 10; break PART;
    }
    if (l3 == 0L) { exit = 10; break PART; }
    l1 = (l9 = (int) b[((int) l2) - 58912]) & 255;
    l5 = 1L;
    L79: {
     if (l9 > -1) { break L79; }
     l10 = (b[((int) l2) - 58911] & 0xff) & 63;
     L80: {
      if (l9 + Integer.MIN_VALUE > 2147483615) { break L80; }
      l1 = ((l1 << 6) & 1984) | l10;
      l5 = 2L;
      break L79;
     }
     l11 = (b[((int) l2) - 58910] & 0xff) & 63;
     L81: {
      if (l9 + Integer.MIN_VALUE > 2147483631) { break L81; }
      l1 = ((l10 << 6) | ((l1 << 12) & 61440)) | l11;
      l5 = 3L;
      break L79;
     }
     l1 = ((l11 << 6) | ((l10 << 12) | ((l1 << 18) & 1835008))) | ((b[((int) l2) - 58909] & 0xff) & 63);
     l5 = 4L;
    }
    final int t82 = (int) l4;
    final long t83 = l3 - l5;
    final int t84 = l1 = (l1 == 47) ? 1 : 0;
    Words.put64(b, t82 - 58864, t84 != 0 ? t83 : 0L);
    final int t85 = (int) l4;
    final long t86 = l2 + l5;
    final int t87 = l1;
    Words.put64(b, t85 - 58872, t87 != 0 ? t86 : 0L);
    Words.put64(b, ((int) l4) - 58880, l1 & 0xffffffffL);
    exit = 10; break PART;
   }
   if (l3 == 0L) { exit = 10; break PART; }
   L88: {
    L89: {
     if ((l1 = (int) b[((int) l2) - 58912]) > -1) { break L89; }
     if (l1 + Integer.MIN_VALUE < 2147483616) { break L89; }
     l9 = l1 & 255;
     l10 = (b[((int) l2) - 58911] & 0xff) & 63;
     l11 = (b[((int) l2) - 58910] & 0xff) & 63;
     L90: {
      L91: {
       if (l1 + Integer.MIN_VALUE > 2147483631) { break L91; }
       l1 = ((l10 << 6) | ((l9 << 12) & 61440)) | l11;
       l5 = 3L;
       break L90;
      }
      l1 = ((l11 << 6) | ((l10 << 12) | ((l9 << 18) & 1835008))) | ((b[((int) l2) - 58909] & 0xff) & 63);
      l5 = 4L;
     }
     if (l1 != 27604) { break L89; }
     l3 = l3 - l5;
     l2 = l2 + l5;
     l5 = 1L;
     break L88;
    }
    l2 = 0L;
    l3 = 0L;
    l5 = 0L;
   }
   Words.put64(b, ((int) l4) - 58864, l3);
   Words.put64(b, ((int) l4) - 58872, l2);
   Words.put64(b, ((int) l4) - 58880, l5);
   exit = 10; break PART;
  }
 }
 m.kept[0] = l1;
 m.kept[1] = l2;
 m.kept[2] = l3;
 m.kept[3] = l5;
 m.kept[4] = l6;
 m.kept[5] = l9;
 m.kept[6] = l10;
 m.kept[7] = l11;
 return exit;
}

static void f134(State m, long l0, int l1, long l2, long l3) {
 final byte[] b = m.bytes;
 long l4 = 0;
 long l5 = 0;
 long l6 = 0;
 long l7 = 0;
 long l8 = 0;
 int l9 = 0;
 int l10 = 0;
 int l11 = 0;
 m.g0 = l4 = m.g0 - 272L;
 L1: {
  L2: {
   L3: {
    L4: {
     if ((l4 = l4) < 16L) { break L4; }
     l5 = 0L;
     Words.put64(b, ((int) l4) - 58864, 0L);
     Words.put64(b, ((int) l4) - 58872, 0L);
     Words.put64(b, ((int) l4) - 58880, 0L);
     Words.put64(b, ((int) l4) - 58904, 0L);
     Words.put64(b, ((int) l4) - 58896, 0L);
     Words.put64(b, ((int) l4) - 58888, 0L);
     L5: {
      L6: {
       L7: {
        L8: {
         L9: {
          L10: {
           L11: {
            L12: {
             L13: {
              final int x92 = f134_1(m, l1, l2, l3, l4, l5, l6, l9, l10, l11);
              l1 = (int) m.kept[0];
              l2 = m.kept[1];
              l3 = m.kept[2];
              l5 = m.kept[3];
              l6 = m.kept[4];
              l9 = (int) m.kept[5];
              l10 = (int) m.kept[6];
              l11 = (int) m.kept[7];
              switch (x92) {
              case 1: break L13;
              case 2: break L12;
              case 3: break L11;
              case 4: break L10;
              case 5: break L9;
              case 6: break L8;
              case 7: break L7;
              case 8: break L6;
              case 9: break L5;
              case 10: break L2;
              }
              if (l3 == 0L) { break L2; }
              L93: {
               L94: {
                if ((l1 = (int) b[((int) l2) - 58912]) > -1) { break L94; }
                if (l1 + Integer.MIN_VALUE < 2147483616) { break L94; }
                l9 = l1 & 255;
                l10 = (b[((int) l2) - 58911] & 0xff) & 63;
                l11 = (b[((int) l2) - 58910] & 0xff) & 63;
                L95: {
                 L96: {
                  if (l1 + Integer.MIN_VALUE > 2147483631) { break L96; }
                  l1 = ((l10 << 6) | ((l9 << 12) & 61440)) | l11;
                  l5 = 3L;
                  break L95;
                 }
                 l1 = ((l11 << 6) | ((l10 << 12) | ((l9 << 18) & 1835008))) | ((b[((int) l2) - 58909] & 0xff) & 63);
                 l5 = 4L;
                }
                l3 = l3 - l5;
                l2 = l2 + l5;
                l5 = 1L;
                if (l1 == 24230) { break L93; }
                if (l1 == 31186) { break L93; }
                if (l1 == 31859) { break L93; }
               }
               l2 = 0L;
               l3 = 0L;
               l5 = 0L;
              }
              Words.put64(b, ((int) l4) - 58864, l3);
              Words.put64(b, ((int) l4) - 58872, l2);
              Words.put64(b, ((int) l4) - 58880, l5);
              break L2;
             }
             if (l3 == 0L) { break L2; }
             l1 = (l9 = (int) b[((int) l2) - 58912]) & 255;
             l5 = 1L;
             L97: {
              L98: {
               L99: {
                L100: {
                 if (l9 > -1) { break L100; }
                 l10 = (b[((int) l2) - 58911] & 0xff) & 63;
                 if (l9 + Integer.MIN_VALUE > 2147483615) { break L99; }
                 l1 = ((l1 << 6) & 1984) | l10;
                 l5 = 2L;
                }
                l6 = l3 - l5;
                l2 = l2 + l5;
                break L98;
               }
               l11 = (b[((int) l2) - 58910] & 0xff) & 63;
               L101: {
                L102: {
                 if (l9 + Integer.MIN_VALUE > 2147483631) { break L102; }
                 l1 = ((l10 << 6) | ((l1 << 12) & 61440)) | l11;
                 l5 = 3L;
                 break L101;
                }
                l1 = ((l11 << 6) | ((l10 << 12) | ((l1 << 18) & 1835008))) | ((b[((int) l2) - 58909] & 0xff) & 63);
                l5 = 4L;
               }
               l6 = l3 - l5;
               l2 = l2 + l5;
               l3 = 1L;
               if (l1 == 21040) { break L97; }
               if (l1 == 33267) { break L97; }
              }
              l3 = 1L;
              L103: {
               L104: {
                if (l1 > 12315) { break L104; }
                if ((l1 + -8211) + Integer.MIN_VALUE < -2147483646) { break L97; }
                if (l1 == 45) { break L97; }
                if (l1 != 126) { break L103; }
                break L97;
               }
               if (l1 == 12316) { break L97; }
               if (l1 == 65293) { break L97; }
               if (l1 == 65374) { break L97; }
              }
              l6 = 0L;
              l2 = 0L;
              l3 = 0L;
             }
             Words.put64(b, ((int) l4) - 58864, l6);
             Words.put64(b, ((int) l4) - 58872, l2);
             Words.put64(b, ((int) l4) - 58880, l3);
             break L2;
            }
            L105: {
             L106: {
              if (!(l3 == 0L)) { break L106; }
              l5 = l2;
              l6 = 0L;
              break L105;
             }
             l1 = (l9 = (int) b[((int) l2) - 58912]) & 255;
             l5 = 1L;
             L107: {
              L108: {
               L109: {
                if (l9 > -1) { break L109; }
                l10 = (b[((int) l2) - 58911] & 0xff) & 63;
                if (l9 + Integer.MIN_VALUE > 2147483615) { break L108; }
                l1 = ((l1 << 6) & 1984) | l10;
                l5 = 2L;
               }
               l6 = l3 - l5;
               l5 = l2 + l5;
               break L107;
              }
              l11 = (b[((int) l2) - 58910] & 0xff) & 63;
              L110: {
               L111: {
                if (l9 + Integer.MIN_VALUE > 2147483631) { break L111; }
                l1 = ((l10 << 6) | ((l1 << 12) & 61440)) | l11;
                l5 = 3L;
                break L110;
               }
               l1 = ((l11 << 6) | ((l10 << 12) | ((l1 << 18) & 1835008))) | ((b[((int) l2) - 58909] & 0xff) & 63);
               l5 = 4L;
              }
              l6 = l3 - l5;
              l5 = l2 + l5;
              if (l1 == 20010) { break L105; }
             }
             l6 = ((l1 = (l1 == 20491) ? 1 : 0) != 0) ? l6 : l3;
             l5 = l1 != 0 ? l5 : l2;
            }
            Words.put64(b, ((int) l4) - 58664, 0L);
            Words.put64(b, ((int) l4) - 58656, 0L);
            Words.put64(b, ((int) l4) - 58648, 0L);
            Words.put64(b, ((int) l4) - 58688, 0L);
            Words.put64(b, ((int) l4) - 58680, 0L);
            Words.put64(b, ((int) l4) - 58672, 0L);
            l3 = 1L;
            f138(m, l4 + 248L, 83948L, 1L, 83952L, 2L, l5, l6);
            L112: {
             L113: {
              if ((b[((int) l4) - 58664] & 0xff) != 1) { break L113; }
              Words.put64(b, ((int) l4) - 58672, Words.get64(b, ((int) l4) - 58648));
              Words.put64(b, ((int) l4) - 58680, Words.get64(b, ((int) l4) - 58656));
              break L112;
             }
             f138(m, l4 + 224L, 83960L, 2L, 83968L, 2L, l5, l6);
             l3 = b[((int) l4) - 58688] & 0xffL;
            }
            Words.put64(b, ((int) l4) - 58880, l3);
            Words.put64(b, ((int) l4) - 58872, Words.get64(b, ((int) l4) - 58680));
            Words.put64(b, ((int) l4) - 58864, Words.get64(b, ((int) l4) - 58672));
            break L2;
           }
           Core5.f159(m, l4 + 32L, 20998, l2, l3);
           break L2;
          }
          Core5.f159(m, l4 + 32L, 31186, l2, l3);
          break L2;
         }
         f138(m, l4 + 8L, 83888L, 2L, 83848L, 1L, l2, l3);
         L114: {
          if ((b[((int) l4) - 58904] & 0xff) != 1) { break L114; }
          Core5.f160(m, l4 + 32L, Words.get64(b, ((int) l4) - 58896), Words.get64(b, ((int) l4) - 58888));
          break L2;
         }
         Words.put64(b, ((int) l0) - 58896, 0L);
         Words.put64(b, ((int) l0) - 58904, 0L);
         Words.put64(b, ((int) l0) - 58912, 0L);
         break L1;
        }
        f138(m, l4 + 32L, 83896L, 13L, 83848L, 1L, l2, l3);
        break L2;
       }
       Words.put64(b, ((int) l4) - 58648, 0L);
       Words.put64(b, ((int) l4) - 58656, 0L);
       Words.put64(b, ((int) l4) - 58664, 0L);
       L115: {
        L116: {
         if (!(l3 == 0L)) { break L116; }
         l7 = 0L;
         l6 = 0L;
         break L115;
        }
        L117: {
         if ((l1 = (int) b[((int) l2) - 58912]) > -1) { break L117; }
         if (l1 + Integer.MIN_VALUE < 2147483616) { break L117; }
         l9 = l1 & 255;
         l10 = (b[((int) l2) - 58911] & 0xff) & 63;
         l11 = (b[((int) l2) - 58910] & 0xff) & 63;
         L118: {
          L119: {
           if (l1 + Integer.MIN_VALUE > 2147483631) { break L119; }
           l1 = ((l10 << 6) | ((l9 << 12) & 61440)) | l11;
           l5 = 3L;
           break L118;
          }
          l1 = ((l11 << 6) | ((l10 << 12) | ((l9 << 18) & 1835008))) | ((b[((int) l2) - 58909] & 0xff) & 63);
          l5 = 4L;
         }
         if (l1 == 20221) { break L3; }
         if (l1 == 24213) { break L3; }
         if (l1 == 26411) { break L3; }
        }
        f138(m, l4 + 248L, 84008L, 3L, 84020L, 1L, l2, l3);
        L120: {
         if ((b[((int) l4) - 58664] & 0xff) != 1) { break L120; }
         Words.put64(b, ((int) l4) - 58864, Words.get64(b, ((int) l4) - 58648));
         Words.put64(b, ((int) l4) - 58872, Words.get64(b, ((int) l4) - 58656));
         Words.put64(b, ((int) l4) - 58880, 1L);
         break L2;
        }
        l5 = 0L;
        l7 = 0L;
        l6 = 0L;
        if ((l1 = (int) b[((int) l2) - 58912]) > -1) { break L115; }
        l5 = 0L;
        l7 = 0L;
        l6 = 0L;
        if (l1 + Integer.MIN_VALUE < 2147483616) { break L115; }
        l9 = l1 & 255;
        l10 = (b[((int) l2) - 58911] & 0xff) & 63;
        l11 = (b[((int) l2) - 58910] & 0xff) & 63;
        L121: {
         L122: {
          if (l1 + Integer.MIN_VALUE > 2147483631) { break L122; }
          l1 = ((l10 << 6) | ((l9 << 12) & 61440)) | l11;
          l8 = 3L;
          break L121;
         }
         l1 = ((l11 << 6) | ((l10 << 12) | ((l9 << 18) & 1835008))) | ((b[((int) l2) - 58909] & 0xff) & 63);
         l8 = 4L;
        }
        l5 = 0L;
        l7 = 0L;
        l6 = 0L;
        if (l1 != 21021) { break L115; }
        l2 = l2 + l8;
        l6 = 0L;
        l5 = 1L;
        L123: {
         if (l3 != l8) { break L123; }
         l7 = l2;
         break L115;
        }
        l9 = (l1 = (int) b[((int) l2) - 58912]) & 255;
        L124: {
         if (l1 > -1) { break L124; }
         l10 = (b[((int) l2) - 58911] & 0xff) & 63;
         L125: {
          if (l1 + Integer.MIN_VALUE > 2147483615) { break L125; }
          l9 = ((l9 << 6) & 1984) | l10;
          break L124;
         }
         l11 = (b[((int) l2) - 58910] & 0xff) & 63;
         L126: {
          if (l1 + Integer.MIN_VALUE > 2147483631) { break L126; }
          l9 = ((l10 << 6) | ((l9 << 12) & 61440)) | l11;
          break L124;
         }
         l9 = ((l11 << 6) | ((l10 << 12) | ((l9 << 18) & 1835008))) | ((b[((int) l2) - 58909] & 0xff) & 63);
        }
        l8 = l3 - l8;
        l3 = -36L;
        L127: {
         L128: while (true) {
          if ((l10 = (Words.get32(b, ((int) (l3 + 84064L)) - 58912) == l9) ? 1 : 0) != 0) { break L127; }
          l1 = (l3 != 0L) ? 1 : 0;
          l3 = l3 + 4L;
          if (l1 != 0) { continue L128; }
          break L128;
         }
        }
        l5 = 0L;
        l7 = 0L;
        l6 = 0L;
        if (l10 != 0) { break L115; }
        l5 = 1L;
        l7 = l2;
        l6 = l8;
       }
       Words.put64(b, ((int) l4) - 58864, l6);
       Words.put64(b, ((int) l4) - 58872, l7);
       Words.put64(b, ((int) l4) - 58880, l5);
       break L2;
      }
      Words.put64(b, ((int) l4) - 58664, 0L);
      Words.put64(b, ((int) l4) - 58656, 0L);
      Words.put64(b, ((int) l4) - 58648, 0L);
      Words.put64(b, ((int) l4) - 58688, 0L);
      Words.put64(b, ((int) l4) - 58680, 0L);
      Words.put64(b, ((int) l4) - 58672, 0L);
      Words.put64(b, ((int) l4) - 58712, 0L);
      Words.put64(b, ((int) l4) - 58704, 0L);
      Words.put64(b, ((int) l4) - 58696, 0L);
      Words.put64(b, ((int) l4) - 58736, 0L);
      Words.put64(b, ((int) l4) - 58728, 0L);
      Words.put64(b, ((int) l4) - 58720, 0L);
      Words.put64(b, ((int) l4) - 58744, 0L);
      Words.put64(b, ((int) l4) - 58752, 0L);
      Words.put64(b, ((int) l4) - 58760, 0L);
      Words.put64(b, ((int) l4) - 58768, 0L);
      Words.put64(b, ((int) l4) - 58776, 0L);
      Words.put64(b, ((int) l4) - 58784, 0L);
      Words.put64(b, ((int) l4) - 58792, 0L);
      Words.put64(b, ((int) l4) - 58800, 0L);
      Words.put64(b, ((int) l4) - 58808, 0L);
      Words.put64(b, ((int) l4) - 58816, 0L);
      Words.put64(b, ((int) l4) - 58824, 0L);
      Words.put64(b, ((int) l4) - 58832, 0L);
      Words.put64(b, ((int) l4) - 58840, 0L);
      Words.put64(b, ((int) l4) - 58848, 0L);
      Words.put64(b, ((int) l4) - 58856, 0L);
      f138(m, l4 + 224L, 84068L, 3L, 84080L, 1L, l2, l3);
      L129: {
       if ((b[((int) l4) - 58688] & 0xff) != 1) { break L129; }
       Words.put64(b, ((int) l4) - 58880, 1L);
       Words.put64(b, ((int) l4) - 58872, Words.get64(b, ((int) l4) - 58680));
       Words.put64(b, ((int) l4) - 58864, Words.get64(b, ((int) l4) - 58672));
       break L2;
      }
      f138(m, l4 + 200L, 84084L, 4L, 84100L, 1L, l2, l3);
      L130: {
       if ((b[((int) l4) - 58712] & 0xff) != 1) { break L130; }
       Words.put64(b, ((int) l4) - 58880, 1L);
       Words.put64(b, ((int) l4) - 58872, Words.get64(b, ((int) l4) - 58704));
       Words.put64(b, ((int) l4) - 58864, Words.get64(b, ((int) l4) - 58696));
       break L2;
      }
      f138(m, l4 + 176L, 84104L, 1L, 84108L, 1L, l2, l3);
      L131: {
       if ((b[((int) l4) - 58736] & 0xff) != 1) { break L131; }
       Words.put64(b, ((int) l4) - 58880, 1L);
       Words.put64(b, ((int) l4) - 58872, Words.get64(b, ((int) l4) - 58728));
       Words.put64(b, ((int) l4) - 58864, Words.get64(b, ((int) l4) - 58720));
       break L2;
      }
      f138(m, l4 + 152L, 84112L, 5L, 84132L, 3L, l2, l3);
      L132: {
       if ((b[((int) l4) - 58760] & 0xff) != 1) { break L132; }
       Words.put64(b, ((int) l4) - 58880, 1L);
       Words.put64(b, ((int) l4) - 58872, Words.get64(b, ((int) l4) - 58752));
       Words.put64(b, ((int) l4) - 58864, Words.get64(b, ((int) l4) - 58744));
       break L2;
      }
      f138(m, l4 + 128L, 84144L, 3L, 84156L, 1L, l2, l3);
      L133: {
       if ((b[((int) l4) - 58784] & 0xff) != 1) { break L133; }
       Words.put64(b, ((int) l4) - 58880, 1L);
       Words.put64(b, ((int) l4) - 58872, Words.get64(b, ((int) l4) - 58776));
       Words.put64(b, ((int) l4) - 58864, Words.get64(b, ((int) l4) - 58768));
       break L2;
      }
      f138(m, l4 + 104L, 84160L, 2L, 84168L, 1L, l2, l3);
      L134: {
       if ((b[((int) l4) - 58808] & 0xff) != 1) { break L134; }
       Words.put64(b, ((int) l4) - 58880, 1L);
       Words.put64(b, ((int) l4) - 58872, Words.get64(b, ((int) l4) - 58800));
       Words.put64(b, ((int) l4) - 58864, Words.get64(b, ((int) l4) - 58792));
       break L2;
      }
      f138(m, l4 + 80L, 84172L, 2L, 84180L, 4L, l2, l3);
      L135: {
       if ((b[((int) l4) - 58832] & 0xff) != 1) { break L135; }
       Words.put64(b, ((int) l4) - 58880, 1L);
       Words.put64(b, ((int) l4) - 58872, Words.get64(b, ((int) l4) - 58824));
       Words.put64(b, ((int) l4) - 58864, Words.get64(b, ((int) l4) - 58816));
       break L2;
      }
      f138(m, l4 + 56L, 84100L, 1L, 84196L, 2L, l2, l3);
      L136: {
       if ((b[((int) l4) - 58856] & 0xff) != 1) { break L136; }
       Words.put64(b, ((int) l4) - 58880, 1L);
       Words.put64(b, ((int) l4) - 58872, Words.get64(b, ((int) l4) - 58848));
       Words.put64(b, ((int) l4) - 58864, Words.get64(b, ((int) l4) - 58840));
       break L2;
      }
      Core5.f161(m, l4 + 248L, l2, l3);
      Words.put64(b, ((int) l4) - 58880, b[((int) l4) - 58664] & 0xffL);
      Words.put64(b, ((int) l4) - 58872, Words.get64(b, ((int) l4) - 58656));
      Words.put64(b, ((int) l4) - 58864, Words.get64(b, ((int) l4) - 58648));
      break L2;
     }
     Words.put64(b, ((int) l4) - 58664, 0L);
     Words.put64(b, ((int) l4) - 58656, 0L);
     Words.put64(b, ((int) l4) - 58648, 0L);
     Words.put64(b, ((int) l4) - 58688, 0L);
     Words.put64(b, ((int) l4) - 58680, 0L);
     Words.put64(b, ((int) l4) - 58672, 0L);
     L137: {
      L138: {
       L139: {
        if (l3 == 0L) { break L139; }
        if ((l1 = (int) b[((int) l2) - 58912]) > -1) { break L139; }
        if (l1 + Integer.MIN_VALUE < 2147483616) { break L139; }
        l9 = l1 & 255;
        l10 = (b[((int) l2) - 58911] & 0xff) & 63;
        l11 = (b[((int) l2) - 58910] & 0xff) & 63;
        L140: {
         L141: {
          if (l1 + Integer.MIN_VALUE > 2147483631) { break L141; }
          l1 = ((l10 << 6) | ((l9 << 12) & 61440)) | l11;
          l5 = 3L;
          break L140;
         }
         l1 = ((l11 << 6) | ((l10 << 12) | ((l9 << 18) & 1835008))) | ((b[((int) l2) - 58909] & 0xff) & 63);
         l5 = 4L;
        }
        L142: {
         if (l1 == 36913) { break L142; }
         if (l1 != 21608) { break L139; }
        }
        l2 = l2 + l5;
        l3 = l3 - l5;
        break L138;
       }
       f138(m, l4 + 224L, 83976L, 1L, 83980L, 1L, l2, l3);
       L143: {
        if ((b[((int) l4) - 58688] & 0xff) != 1) { break L143; }
        l3 = Words.get64(b, ((int) l4) - 58672);
        l2 = Words.get64(b, ((int) l4) - 58680);
        break L138;
       }
       f138(m, l4 + 248L, 83984L, 2L, 83992L, 1L, l2, l3);
       if ((b[((int) l4) - 58664] & 0xff) != 1) { break L137; }
       l3 = Words.get64(b, ((int) l4) - 58648);
       l2 = Words.get64(b, ((int) l4) - 58656);
      }
      L144: {
       L145: {
        if (!(l3 == 0L)) { break L145; }
        l3 = 0L;
        l2 = 0L;
        l5 = 0L;
        break L144;
       }
       L146: {
        if ((l1 = (int) b[((int) l2) - 58912]) > -1) { break L146; }
        if (l1 + Integer.MIN_VALUE < 2147483616) { break L146; }
        l9 = l1 & 255;
        l10 = (b[((int) l2) - 58911] & 0xff) & 63;
        l11 = (b[((int) l2) - 58910] & 0xff) & 63;
        L147: {
         L148: {
          if (l1 + Integer.MIN_VALUE > 2147483631) { break L148; }
          l1 = ((l10 << 6) | ((l9 << 12) & 61440)) | l11;
          l5 = 3L;
          break L147;
         }
         l1 = ((l11 << 6) | ((l10 << 12) | ((l9 << 18) & 1835008))) | ((b[((int) l2) - 58909] & 0xff) & 63);
         l5 = 4L;
        }
        l3 = l3 - l5;
        l5 = l2 + l5;
        l2 = 1L;
        L149: {
         if (l1 > 20844) { break L149; }
         L150: {
          switch (l1 + -19968) {
          case 0: case 9: break L144;
          case 1: case 2: case 3: case 4: case 5: case 6: case 7: case 8: break L146;
          default: break L150;
          }
         }
         switch (l1 + -20108) {
         case 0: case 8: break L144;
         default: break L146;
         }
        }
        if (l1 == 20845) { break L144; }
        if (l1 == 22235) { break L144; }
       }
       l2 = 0L;
       l5 = 0L;
       l3 = 0L;
      }
      Words.put64(b, ((int) l4) - 58864, l3);
      Words.put64(b, ((int) l4) - 58872, l5);
      Words.put64(b, ((int) l4) - 58880, l2);
      break L2;
     }
     Words.put64(b, ((int) l4) - 58864, 0L);
     Words.put64(b, ((int) l4) - 58872, 0L);
     Words.put64(b, ((int) l4) - 58880, 0L);
     break L2;
    }
    throw State.trap();
   }
   Words.put64(b, ((int) l4) - 58880, 1L);
   Words.put64(b, ((int) l4) - 58864, l3 - l5);
   Words.put64(b, ((int) l4) - 58872, l2 + l5);
  }
  Words.put64(b, ((int) l0) - 58912, b[((int) l4) - 58880] & 0xffL);
  Words.put64(b, ((int) (l0 + 8L)) - 58912, Words.get64(b, ((int) l4) - 58872));
  Words.put64(b, ((int) (l0 + 16L)) - 58912, Words.get64(b, ((int) l4) - 58864));
 }
 m.g0 = l4 + 272L;
}

static int f135(State m, long l0) {
 final byte[] b = m.bytes;
 long l1 = 0;
 long l2 = 0;
 long l3 = 0;
 long l4 = 0;
 long l5 = 0;
 int l6 = 0;
 m.g0 = l1 = m.g0 - 128L;
 L1: {
  if ((l1 = l1) < 16L) { break L1; }
  l2 = Words.get64(b, ((int) l0) - 58888);
  l3 = Words.get64(b, ((int) l0) - 58896);
  l4 = Words.get64(b, ((int) l0) - 58904);
  l5 = Words.get64(b, ((int) l0) - 58912);
  Words.put64(b, ((int) l1) - 58856, Words.get64(b, ((int) l0) - 58872));
  Words.put64(b, ((int) l1) - 58864, Words.get64(b, ((int) l0) - 58880));
  Words.put64(b, ((int) l1) - 58792, 0L);
  Words.put64(b, ((int) l1) - 58800, 0L);
  Words.put64(b, ((int) l1) - 58808, 0L);
  Words.put64(b, ((int) l1) - 58816, 0L);
  Words.put64(b, ((int) l1) - 58824, 0L);
  Words.put64(b, ((int) l1) - 58832, 0L);
  Words.put64(b, ((int) l1) - 58840, 0L);
  Words.put64(b, ((int) l1) - 58848, 0L);
  Core3.f80(m, l1 + 64L, l3, l2, 1);
  L2: {
   L3: {
    L4: {
     if ((b[((int) l1) - 58848] & 0xff) != 0) { break L4; }
     if (((b[((int) l1) - 58800] & 0xff) & 255) == 3) { break L4; }
     if (Words.get64(b, ((int) l1) - 58824) > -1L) { break L3; }
    }
    l6 = 0;
    break L2;
   }
   Words.put64(b, ((int) l1) - 58888, l2);
   Words.put64(b, ((int) l1) - 58896, l3);
   Words.put64(b, ((int) l1) - 58904, l4);
   Words.put64(b, ((int) l1) - 58912, l5);
   Words.put64(b, ((int) l1) - 58880, Words.get64(b, ((int) l1) - 58864));
   Words.put64(b, ((int) l1) - 58872, Words.get64(b, ((int) l1) - 58856));
   l6 = 0;
   if (f142(m, l1) != 0) { break L2; }
   Words.put64(b, ((int) l1) - 58792, 0L);
   Words.put64(b, ((int) l1) - 58800, 0L);
   Words.put64(b, ((int) l1) - 58808, 0L);
   Words.put64(b, ((int) l1) - 58816, 0L);
   Words.put64(b, ((int) l1) - 58824, 0L);
   Words.put64(b, ((int) l1) - 58832, 0L);
   Words.put64(b, ((int) l1) - 58840, 0L);
   Words.put64(b, ((int) l1) - 58848, 0L);
   Core3.f80(m, l1 + 64L, l3, l2, 1);
   L5: {
    if ((b[((int) l1) - 58848] & 0xff) != 0) { break L5; }
    if (((b[((int) l1) - 58800] & 0xff) & 255) == 2) { break L2; }
   }
   l6 = f143(m, l5, l4, 83372L, 0L) ^ 1;
  }
  m.g0 = l1 + 128L;
  final int t6 = l6;
  return t6;
 }
 throw State.trap();
}

static void f136(State m, long l0, long l1, long l2) {
 final byte[] b = m.bytes;
 long l3 = 0;
 long l4 = 0;
 long l5 = 0;
 long l6 = 0;
 int l7 = 0;
 int l8 = 0;
 int l9 = 0;
 int l10 = 0;
 m.g0 = l3 = m.g0 - 240L;
 L1: {
  L2: {
   L3: {
    L4: {
     L5: {
      L6: {
       if ((l3 = l3) < 16L) { break L6; }
       Words.put64(b, ((int) l3) - 58859, 0L);
       Words.put64(b, ((int) l3) - 58864, 0L);
       Words.put64(b, ((int) l3) - 58872, 0L);
       Words.put64(b, ((int) l3) - 58896, 0L);
       Words.put64(b, ((int) l3) - 58888, 0L);
       Words.put64(b, ((int) l3) - 58883, 0L);
       if (l2 == 0L) { break L4; }
       l8 = (l7 = (int) b[((int) l1) - 58912]) & 255;
       L7: {
        if (l7 > -1) { break L7; }
        if (l7 + Integer.MIN_VALUE < 2147483616) { break L7; }
        l9 = (b[((int) l1) - 58911] & 0xff) & 63;
        l10 = (b[((int) l1) - 58910] & 0xff) & 63;
        L8: {
         L9: {
          if (l7 + Integer.MIN_VALUE > 2147483631) { break L9; }
          l9 = ((l9 << 6) | ((l8 << 12) & 61440)) | l10;
          l4 = 3L;
          break L8;
         }
         l9 = ((l10 << 6) | ((l9 << 12) | ((l8 << 18) & 1835008))) | ((b[((int) l1) - 58909] & 0xff) & 63);
         l4 = 4L;
        }
        L10: {
         if (l9 == 12295) { break L10; }
         if (l9 != 38646) { break L7; }
        }
        l1 = l1 + l4;
        if ((l2 = l2 - l4) == 0L) { break L4; }
        l7 = l8 = b[((int) l1) - 58912] & 0xff;
       }
       l4 = 1L;
       L11: {
        if (((int) (byte) l7) > -1) { break L11; }
        l9 = (b[((int) l1) - 58911] & 0xff) & 63;
        L12: {
         if ((l7 = l7 & 255) + Integer.MIN_VALUE > -2147483425) { break L12; }
         l8 = ((l8 << 6) & 1984) | l9;
         l4 = 2L;
         break L11;
        }
        l10 = (b[((int) l1) - 58910] & 0xff) & 63;
        L13: {
         if (l7 + Integer.MIN_VALUE > -2147483409) { break L13; }
         l8 = ((l9 << 6) | ((l8 << 12) & 61440)) | l10;
         l4 = 3L;
         break L11;
        }
        l8 = ((l10 << 6) | ((l9 << 12) | ((l8 << 18) & 1835008))) | ((b[((int) l1) - 58909] & 0xff) & 63);
        l4 = 4L;
       }
       f139(m, l3 + 8L, l8);
       if (((b[((int) l3) - 58904] & 0xff) & 1) == 0) { break L3; }
       L14: {
        if (l2 == l4) { break L14; }
        if ((l7 = (int) b[((int) (l5 = l1 + l4)) - 58912]) > -1) { break L14; }
        if (l7 + Integer.MIN_VALUE < 2147483616) { break L14; }
        l8 = l7 & 255;
        l9 = (b[((int) l5) - 58911] & 0xff) & 63;
        l10 = (b[((int) l5) - 58910] & 0xff) & 63;
        L15: {
         L16: {
          if (l7 + Integer.MIN_VALUE > 2147483631) { break L16; }
          l7 = ((l9 << 6) | ((l8 << 12) & 61440)) | l10;
          l6 = 3L;
          break L15;
         }
         l7 = ((l10 << 6) | ((l9 << 12) | ((l8 << 18) & 1835008))) | ((b[((int) l5) - 58909] & 0xff) & 63);
         l6 = 4L;
        }
        l8 = b[((int) l3) - 58903] & 0xff;
        L17: {
         if (l7 == 27611) { break L17; }
         if (l7 != 35282) { break L14; }
        }
        Words.put64(b, ((int) l3) - 58811, 0L);
        Words.put64(b, ((int) l3) - 58816, 0L);
        Words.put64(b, ((int) l3) - 58824, 0L);
        Words.put64(b, ((int) l3) - 58704, 0L);
        Words.put64(b, ((int) l3) - 58696, 0L);
        Words.put64(b, ((int) l3) - 58688, 0L);
        Words.put64(b, ((int) l3) - 58680, 0L);
        Words.put64(b, ((int) l3) - 58760, 0L);
        Words.put64(b, ((int) l3) - 58752, 0L);
        Words.put64(b, ((int) l3) - 58744, 0L);
        Words.put64(b, ((int) l3) - 58736, 0L);
        Words.put32(b, ((int) l3) - 58784, 0);
        b[((int) l3) - 58780] = (byte) 0;
        f140(m, l3 + 208L, l5 = l5 + l6, l4 = l2 - (l4 + l6));
        L18: {
         L19: {
          L20: {
           L21: {
            if ((b[((int) l3) - 58704] & 0xff) != 1) { break L21; }
            Words.put64(b, ((int) l3) - 58728, Words.get64(b, ((int) l3) - 58695));
            Words.put64(b, ((int) l3) - 58720, Words.get64(b, ((int) l3) - 58687));
            Words.put64(b, ((int) l3) - 58713, Words.get64(b, ((int) l3) - 58680));
            l9 = b[((int) l3) - 58696] & 0xff;
            break L20;
           }
           f137(m, l3 + 152L, l5, l4);
           if ((b[((int) l3) - 58760] & 0xff) != 1) { break L19; }
           Words.put64(b, ((int) l3) - 58728, Words.get64(b, ((int) l3) - 58751));
           Words.put64(b, ((int) l3) - 58720, Words.get64(b, ((int) l3) - 58743));
           Words.put64(b, ((int) l3) - 58713, Words.get64(b, ((int) l3) - 58736));
           l9 = b[((int) l3) - 58752] & 0xff;
          }
          Words.put64(b, ((int) l3) - 58779, Words.get64(b, ((int) l3) - 58721));
          Words.put64(b, ((int) l3) - 58771, l2 = Words.get64(b, ((int) l3) - 58713));
          Words.put64(b, ((int) l3) - 58835, l2);
          Words.put64(b, ((int) l3) - 58848, Words.get64(b, ((int) l3) - 58784));
          Words.put64(b, ((int) l3) - 58840, Words.get64(b, ((int) l3) - 58776));
          break L18;
         }
         Words.put64(b, ((int) l3) - 58688, 0L);
         Words.put64(b, ((int) l3) - 58696, 0L);
         Words.put64(b, ((int) l3) - 58704, 0L);
         Core5.f173(m, l3 + 208L, 85684L, 49L, l5, l4);
         Words.put64(b, ((int) l3) - 58800, Words.get64(b, ((int) l3) - 58696));
         Words.put64(b, ((int) l3) - 58792, Words.get64(b, ((int) l3) - 58688));
         if ((b[((int) l3) - 58704] & 0xff) != 1) { break L5; }
         Words.put64(b, ((int) l3) - 58819, Words.get64(b, ((int) l3) - 58800));
         Words.put64(b, ((int) l3) - 58811, l2 = Words.get64(b, ((int) l3) - 58792));
         Words.put64(b, ((int) l3) - 58835, l2);
         Words.put64(b, ((int) l3) - 58848, Words.get64(b, ((int) l3) - 58824));
         Words.put64(b, ((int) l3) - 58840, Words.get64(b, ((int) l3) - 58816));
         l9 = 0;
        }
        Words.put64(b, ((int) l3) - 58859, Words.get64(b, ((int) l3) - 58835));
        Words.put64(b, ((int) l3) - 58864, Words.get64(b, ((int) l3) - 58840));
        Words.put64(b, ((int) l3) - 58872, l2 = Words.get64(b, ((int) l3) - 58848));
        Words.put64(b, ((int) l3) - 58896, l2);
        Words.put64(b, ((int) l3) - 58888, Words.get64(b, ((int) l3) - 58864));
        Words.put64(b, ((int) l3) - 58883, Words.get64(b, ((int) l3) - 58859));
        l7 = 3;
        l4 = 1L;
        break L1;
       }
       Words.put64(b, ((int) l3) - 58859, 0L);
       Words.put64(b, ((int) l3) - 58864, 0L);
       Words.put64(b, ((int) l3) - 58872, 0L);
       break L2;
      }
      throw State.trap();
     }
     Words.put64(b, ((int) l3) - 58872, 0L);
     Words.put64(b, ((int) l3) - 58864, 0L);
     Words.put64(b, ((int) l3) - 58859, 0L);
     break L2;
    }
    l2 = 0L;
   }
   Words.put64(b, ((int) l3) - 58859, 0L);
   Words.put64(b, ((int) l3) - 58864, 0L);
   Words.put64(b, ((int) l3) - 58872, 0L);
  }
  l4 = 0L;
  Words.put64(b, ((int) l3) - 58704, 0L);
  Words.put64(b, ((int) l3) - 58696, 0L);
  Words.put64(b, ((int) l3) - 58688, 0L);
  Words.put64(b, ((int) l3) - 58680, 0L);
  l7 = 0;
  Words.put32(b, ((int) l3) - 58760, 0);
  b[((int) l3) - 58756] = (byte) 0;
  f140(m, l3 + 208L, l1, l2);
  L22: {
   L23: {
    if ((b[((int) l3) - 58704] & 0xff) != 1) { break L23; }
    Words.put64(b, ((int) l3) - 58755, Words.get64(b, ((int) l3) - 58688));
    Words.put64(b, ((int) l3) - 58747, l2 = Words.get64(b, ((int) l3) - 58680));
    Words.put64(b, ((int) l3) - 58883, l2);
    Words.put64(b, ((int) l3) - 58896, Words.get64(b, ((int) l3) - 58760));
    Words.put64(b, ((int) l3) - 58888, Words.get64(b, ((int) l3) - 58752));
    l7 = 3;
    l4 = 1L;
    l9 = b[((int) l3) - 58696] & 0xff;
    break L22;
   }
   Words.put64(b, ((int) l3) - 58883, 0L);
   Words.put64(b, ((int) l3) - 58888, 0L);
   Words.put64(b, ((int) l3) - 58896, 0L);
   l9 = 0;
  }
  l8 = 0;
 }
 Words.put64(b, ((int) l0) - 58912, l4);
 b[((int) (l0 + 10L)) - 58912] = (byte) l9;
 b[((int) (l0 + 9L)) - 58912] = (byte) l8;
 b[((int) (l0 + 8L)) - 58912] = (byte) l7;
 Words.put64(b, ((int) (l0 + 11L)) - 58912, Words.get64(b, ((int) l3) - 58896));
 Words.put64(b, ((int) (l0 + 19L)) - 58912, Words.get64(b, ((int) l3) - 58888));
 Words.put64(b, ((int) (l0 + 24L)) - 58912, Words.get64(b, ((int) l3) - 58883));
 m.g0 = l3 + 240L;
}

static void f137(State m, long l0, long l1, long l2) {
 final byte[] b = m.bytes;
 long l3 = 0;
 long l4 = 0;
 long l5 = 0;
 long l6 = 0;
 long l7 = 0;
 long l8 = 0;
 long l9 = 0;
 long l10 = 0;
 int l11 = 0;
 int l12 = 0;
 int l13 = 0;
 int l14 = 0;
 int l15 = 0;
 int l16 = 0;
 int l17 = 0;
 int l18 = 0;
 m.g0 = l3 = m.g0 - 16L;
 L1: {
  L2: {
   L3: {
    L4: {
     L5: {
      L6: {
       L7: {
        L8: {
         L9: {
          L10: {
           if ((l4 = l3) < 16L) { break L10; }
           Words.put32(b, ((int) l4) - 58901, 0);
           Words.put32(b, ((int) l4) - 58904, 0);
           if (l2 == 0L) { break L9; }
           l3 = 1L;
           l13 = l12 = (l11 = (int) b[((int) l1) - 58912]) & 255;
           L11: {
            if (l11 > -1) { break L11; }
            l14 = (b[((int) l1) - 58911] & 0xff) & 63;
            L12: {
             if (l11 + Integer.MIN_VALUE > 2147483615) { break L12; }
             l13 = ((l12 << 6) & 1984) | l14;
             l3 = 2L;
             break L11;
            }
            l15 = (b[((int) l1) - 58910] & 0xff) & 63;
            L13: {
             if (l11 + Integer.MIN_VALUE > 2147483631) { break L13; }
             l13 = ((l14 << 6) | ((l12 << 12) & 61440)) | l15;
             l3 = 3L;
             break L11;
            }
            l13 = ((l15 << 6) | ((l14 << 12) | ((l12 << 18) & 1835008))) | ((b[((int) l1) - 58909] & 0xff) & 63);
            l3 = 4L;
           }
           if (l2 == l3) { break L5; }
           l5 = l2 - l3;
           l6 = 1L;
           l15 = l17 = (l16 = (int) b[((int) (l7 = l1 + l3)) - 58912]) & 255;
           L14: {
            if (l16 > -1) { break L14; }
            l14 = (b[((int) l7) - 58911] & 0xff) & 63;
            L15: {
             if (l16 + Integer.MIN_VALUE > 2147483615) { break L15; }
             l15 = ((l17 << 6) & 1984) | l14;
             l6 = 2L;
             break L14;
            }
            l15 = (b[((int) l7) - 58910] & 0xff) & 63;
            L16: {
             if (l16 + Integer.MIN_VALUE > 2147483631) { break L16; }
             l15 = ((l14 << 6) | ((l17 << 12) & 61440)) | l15;
             l6 = 3L;
             break L14;
            }
            l15 = ((l15 << 6) | ((l14 << 12) | ((l17 << 18) & 1835008))) | ((b[((int) l7) - 58909] & 0xff) & 63);
            l6 = 4L;
           }
           if (f128(m, l7, l5) != 0) { break L5; }
           l8 = l7 + l6;
           l3 = -48L;
           L17: {
            L18: while (true) {
             if ((l18 = (Words.get32(b, ((int) (l3 + 85456L)) - 58912) == l15) ? 1 : 0) != 0) { break L17; }
             l14 = (l3 != 0L) ? 1 : 0;
             l3 = l3 + 4L;
             if (l14 != 0) { continue L18; }
             break L18;
            }
           }
           if (l18 != 0) { break L5; }
           L19: {
            if ((l15 + -19968) + Integer.MIN_VALUE > -2147462657) { break L19; }
            l3 = 0L;
            l14 = 0;
            if (l13 == 19968) { break L4; }
            L20: {
             if (l16 > -1) { break L20; }
             l15 = (b[((int) l7) - 58911] & 0xff) & 63;
             L21: {
              if (l16 + Integer.MIN_VALUE > 2147483615) { break L21; }
              l17 = ((l17 << 6) & 1984) | l15;
              break L20;
             }
             l18 = (b[((int) l7) - 58910] & 0xff) & 63;
             L22: {
              if (l16 + Integer.MIN_VALUE > 2147483631) { break L22; }
              l17 = ((l15 << 6) | ((l17 << 12) & 61440)) | l18;
              break L20;
             }
             l17 = ((l18 << 6) | ((l15 << 12) | ((l17 << 18) & 1835008))) | ((b[((int) l7) - 58909] & 0xff) & 63);
            }
            l3 = -208L;
            L23: {
             L24: while (true) {
              if ((l18 = (Words.get32(b, ((int) (l3 + 85680L)) - 58912) == l17) ? 1 : 0) != 0) { break L23; }
              l15 = (l3 != 0L) ? 1 : 0;
              l3 = l3 + 4L;
              if (l15 != 0) { continue L24; }
              break L24;
             }
            }
            if (l18 != 0) { break L5; }
            l3 = 0L;
            l9 = 0L;
            l10 = 0L;
            if (Core5.f157(m, 85460L, 1L, 85464L, 2L, l7, l5) != 0) { break L5; }
            break L2;
           }
           l3 = 0L;
           l14 = 0;
           if ((l15 + -48) + Integer.MIN_VALUE < -2147483638) { break L4; }
           if ((l15 + -65296) + Integer.MIN_VALUE < -2147483638) { break L4; }
           l9 = 0L;
           l3 = 0L;
           L25: {
            if (l15 > 20840) { break L25; }
            L26: {
             if (l15 > 19967) { break L26; }
             if (l15 == 37) { break L3; }
             if (l15 == 8240) { break L3; }
             if (l15 != 12295) { break L6; }
             break L3;
            }
            if ((l18 = l15 + -19968) + Integer.MIN_VALUE > -2147483612) { break L7; }
            if (((1L << (l18 & 0xffffffffL)) & 68719477257L) == 0L) { break L7; }
            break L3;
           }
           L27: {
            if (l15 > 22234) { break L27; }
            if ((l18 = l15 + -20841) + Integer.MIN_VALUE > -2147483644) { break L8; }
            if (((1 << l18) & 21) == 0) { break L8; }
            break L3;
           }
           L28: {
            if (l15 > 38645) { break L28; }
            if (l15 == 22235) { break L3; }
            if (l15 != 30334) { break L6; }
            break L3;
           }
           if (l15 == 38646) { break L3; }
           if (l15 == 65285) { break L3; }
           break L6;
          }
          throw State.trap();
         }
         Words.put64(b, ((int) l0) - 58888, 0L);
         Words.put64(b, ((int) l0) - 58896, 0L);
         Words.put64(b, ((int) l0) - 58904, 0L);
         Words.put64(b, ((int) l0) - 58912, 0L);
         break L1;
        }
        if (l15 != 21313) { break L6; }
        break L3;
       }
       l10 = 0L;
       L29: {
        switch (l15 + -20108) {
        case 0: case 8: break L2;
        case 1: case 2: case 3: case 4: case 5: case 6: case 7: break L6;
        default: break L29;
        }
       }
       if (l15 == 20061) { break L3; }
      }
      l3 = 0L;
      if (l15 == 95) { break L4; }
      if (((l15 & 2097119) + -65) + Integer.MIN_VALUE < -2147483622) { break L4; }
      L30: {
       L31: {
        switch (l15 + -44) {
        case 0: case 2: break L30;
        case 1: break L5;
        default: break L31;
        }
       }
       if (l15 != 65294) { break L5; }
      }
      if (((l13 + -58) + Integer.MIN_VALUE < 2147483638) & ((l13 + -65306) + Integer.MIN_VALUE < 2147483638)) { break L5; }
      if (l5 == l6) { break L5; }
      l15 = (l18 = (int) b[((int) l8) - 58912]) & 255;
      L32: {
       if (l18 > -1) { break L32; }
       l17 = (b[((int) l8) - 58911] & 0xff) & 63;
       L33: {
        if (l18 + Integer.MIN_VALUE > 2147483615) { break L33; }
        l15 = ((l15 << 6) & 1984) | l17;
        break L32;
       }
       l13 = (b[((int) l8) - 58910] & 0xff) & 63;
       L34: {
        if (l18 + Integer.MIN_VALUE > 2147483631) { break L34; }
        l15 = ((l17 << 6) | ((l15 << 12) & 61440)) | l13;
        break L32;
       }
       l15 = ((l13 << 6) | ((l17 << 12) | ((l15 << 18) & 1835008))) | ((b[((int) l8) - 58909] & 0xff) & 63);
      }
      l3 = 0L;
      if ((l15 + -58) + Integer.MIN_VALUE > 2147483637) { break L4; }
      l9 = 0L;
      l10 = 0L;
      if ((l15 + -65306) + Integer.MIN_VALUE >= 2147483638) { break L2; }
     }
     l3 = 1L;
     L35: {
      if (l11 > -1) { break L35; }
      l14 = (b[((int) l1) - 58911] & 0xff) & 63;
      L36: {
       if (l11 + Integer.MIN_VALUE > 2147483615) { break L36; }
       l12 = ((l12 << 6) & 1984) | l14;
       l3 = 2L;
       break L35;
      }
      l15 = (b[((int) l1) - 58910] & 0xff) & 63;
      L37: {
       if (l11 + Integer.MIN_VALUE > 2147483631) { break L37; }
       l12 = ((l14 << 6) | ((l12 << 12) & 61440)) | l15;
       l3 = 3L;
       break L35;
      }
      l12 = ((l15 << 6) | ((l14 << 12) | ((l12 << 18) & 1835008))) | ((b[((int) l1) - 58909] & 0xff) & 63);
      l3 = 4L;
     }
     f139(m, l4, l12);
     L38: {
      if (((b[((int) l4) - 58912] & 0xff) & 1) == 0) { break L38; }
      l14 = b[((int) l4) - 58911] & 0xff;
      Words.put32(b, ((int) l4) - 58901, 0);
      Words.put32(b, ((int) l4) - 58904, 0);
      l9 = l1 + l3;
      l10 = l2 - l3;
      l3 = 1L;
      break L2;
     }
     l14 = 0;
     Words.put32(b, ((int) l4) - 58901, 0);
     Words.put32(b, ((int) l4) - 58904, 0);
     l3 = 0L;
    }
    l9 = 0L;
   }
   l10 = 0L;
  }
  Words.put64(b, ((int) l0) - 58912, l3);
  b[((int) (l0 + 8L)) - 58912] = (byte) l14;
  Words.put32(b, ((int) (l0 + 9L)) - 58912, Words.get32(b, ((int) l4) - 58904));
  Words.put32(b, ((int) (l0 + 12L)) - 58912, Words.get32(b, ((int) l4) - 58901));
  Words.put64(b, ((int) (l0 + 24L)) - 58912, l10);
  Words.put64(b, ((int) (l0 + 16L)) - 58912, l9);
 }
 m.g0 = l4 + 16L;
}

static void f138(State m, long l0, long l1, long l2, long l3, long l4, long l5, long l6) {
 final byte[] b = m.bytes;
 int l7 = 0;
 int l8 = 0;
 int l9 = 0;
 int l10 = 0;
 long l11 = 0;
 long l12 = 0;
 L1: {
  L2: {
   L3: {
    L4: {
     if (m.g0 < 16L) { break L4; }
     L5: {
      L6: {
       if (l6 == 0L) { break L6; }
       l8 = (l7 = (int) b[((int) l5) - 58912]) & 255;
       l11 = 1L;
       L7: {
        if (l7 > -1) { break L7; }
        l9 = (b[((int) l5) - 58911] & 0xff) & 63;
        L8: {
         if (l7 + Integer.MIN_VALUE > 2147483615) { break L8; }
         l8 = ((l8 << 6) & 1984) | l9;
         l11 = 2L;
         break L7;
        }
        l10 = (b[((int) l5) - 58910] & 0xff) & 63;
        L9: {
         if (l7 + Integer.MIN_VALUE > 2147483631) { break L9; }
         l8 = ((l9 << 6) | ((l8 << 12) & 61440)) | l10;
         l11 = 3L;
         break L7;
        }
        l8 = ((l10 << 6) | ((l9 << 12) | ((l8 << 18) & 1835008))) | ((b[((int) l5) - 58909] & 0xff) & 63);
        l11 = 4L;
       }
       l5 = l5 + l11;
       L10: while (true) {
        if (Words.get32(b, ((int) l1) - 58912) == l8) { break L5; }
        l1 = l1 + 4L;
        if (!((l2 = l2 + -1L) == 0L)) { continue L10; }
        break L10;
       }
      }
      Words.put64(b, ((int) l0) - 58896, 0L);
      Words.put64(b, ((int) l0) - 58904, 0L);
      Words.put64(b, ((int) l0) - 58912, 0L);
      return;
     }
     l1 = 0L;
     l2 = 0L;
     l12 = 0L;
     if (l6 == l11) { break L1; }
     l8 = (l7 = (int) b[((int) l5) - 58912]) & 255;
     l1 = 1L;
     L11: {
      L12: {
       if (l7 <= -1) { break L12; }
       l2 = 1L;
       break L11;
      }
      l9 = (b[((int) l5) - 58911] & 0xff) & 63;
      L13: {
       if (l7 + Integer.MIN_VALUE > 2147483615) { break L13; }
       l8 = ((l8 << 6) & 1984) | l9;
       l2 = 2L;
       break L11;
      }
      l10 = (b[((int) l5) - 58910] & 0xff) & 63;
      L14: {
       if (l7 + Integer.MIN_VALUE > 2147483631) { break L14; }
       l8 = ((l9 << 6) | ((l8 << 12) & 61440)) | l10;
       l2 = 3L;
       break L11;
      }
      l8 = ((l10 << 6) | ((l9 << 12) | ((l8 << 18) & 1835008))) | ((b[((int) l5) - 58909] & 0xff) & 63);
      l2 = 4L;
     }
     l5 = l5 + l2;
     l6 = l6 - (l11 + l2);
     if (Words.get32(b, ((int) l3) - 58912) == l8) { break L2; }
     l1 = 0L;
     l2 = 0L;
     l12 = 0L;
     if (l4 == 1L) { break L1; }
     if (Words.get32(b, ((int) (l3 + 4L)) - 58912) == l8) { break L3; }
     l1 = 0L;
     l2 = 0L;
     l12 = 0L;
     if (l4 == 2L) { break L1; }
     if (Words.get32(b, ((int) (l3 + 8L)) - 58912) == l8) { break L3; }
     l1 = 0L;
     l2 = 0L;
     l12 = 0L;
     if (l4 == 3L) { break L1; }
     l1 = 1L;
     l2 = l5;
     l12 = l6;
     if (Words.get32(b, ((int) (l3 + 12L)) - 58912) == l8) { break L1; }
     l1 = 0L;
     l2 = 0L;
     l12 = 0L;
     break L1;
    }
    throw State.trap();
   }
   l1 = 1L;
  }
  l2 = l5;
  l12 = l6;
 }
 Words.put64(b, ((int) l0) - 58912, l1);
 Words.put64(b, ((int) (l0 + 16L)) - 58912, l12);
 Words.put64(b, ((int) (l0 + 8L)) - 58912, l2);
}

static void f139(State m, long l0, int l1) {
 final byte[] b = m.bytes;
 long l2 = 0;
 int l3 = 0;
 int l4 = 0;
 int l5 = 0;
 m.g0 = l2 = m.g0 - 16L;
 L1: {
  L2: {
   L3: {
    L4: {
     L5: {
      L6: {
       if ((l2 = l2) < 16L) { break L6; }
       Core1.f24(m, l2 + 8L, l1);
       l3 = 1;
       L7: {
        if ((b[((int) l2) - 58904] & 0xff) != 1) { break L7; }
        l4 = b[((int) l2) - 58903] & 0xff;
        break L1;
       }
       l3 = 0;
       l4 = 0;
       L8: {
        if (l1 > 20107) { break L8; }
        if ((l5 = l1 + -19968) + Integer.MIN_VALUE <= -2147483612) { break L5; }
        break L3;
       }
       L9: {
        if (l1 > 22234) { break L9; }
        if ((l5 = l1 + -20841) + Integer.MIN_VALUE > -2147483644) { break L4; }
        if (((1 << l5) & 21) == 0) { break L4; }
        break L2;
       }
       if (l1 == 38646) { break L2; }
       if (l1 != 22235) { break L1; }
       break L2;
      }
      throw State.trap();
     }
     if (((1L << (l5 & 0xffffffffL)) & 68719477257L) == 0L) { break L3; }
     break L2;
    }
    switch (l1 + -20108) {
    case 0: case 8: break L2;
    default: break L1;
    }
   }
   if (l1 == 12295) { break L2; }
   if (l1 != 20061) { break L1; }
  }
  Core2.f63(m, l2, l1);
  final int t10 = l1 = b[((int) l2) - 58911] & 0xff;
  final int t11 = (l3 = b[((int) l2) - 58912] & 0xff) & 1;
  l4 = t11 != 0 ? t10 : 0;
  l3 = (((l1 & 255) != 0) ? 1 : 0) & l3;
 }
 b[((int) l0) - 58911] = (byte) l4;
 b[((int) l0) - 58912] = (byte) l3;
 m.g0 = l2 + 16L;
}

static void f140(State m, long l0, long l1, long l2) {
 final byte[] b = m.bytes;
 long l3 = 0;
 long l4 = 0;
 long l5 = 0;
 int l6 = 0;
 int l7 = 0;
 int l8 = 0;
 int l9 = 0;
 int l10 = 0;
 m.g0 = l3 = m.g0 - 80L;
 L1: {
  L2: {
   L3: {
    if ((l3 = l3) < 16L) { break L3; }
    Words.put32(b, ((int) l3) - 58893, 0);
    Words.put32(b, ((int) l3) - 58896, 0);
    if (l2 == 0L) { break L2; }
    l7 = (l6 = (int) b[((int) l1) - 58912]) & 255;
    l4 = 1L;
    L4: {
     if (l6 > -1) { break L4; }
     l8 = (b[((int) l1) - 58911] & 0xff) & 63;
     L5: {
      if (l6 + Integer.MIN_VALUE > 2147483615) { break L5; }
      l7 = ((l7 << 6) & 1984) | l8;
      l4 = 2L;
      break L4;
     }
     l9 = (b[((int) l1) - 58910] & 0xff) & 63;
     L6: {
      if (l6 + Integer.MIN_VALUE > 2147483631) { break L6; }
      l7 = ((l8 << 6) | ((l7 << 12) & 61440)) | l9;
      l4 = 3L;
      break L4;
     }
     l7 = ((l9 << 6) | ((l8 << 12) | ((l7 << 18) & 1835008))) | ((b[((int) l1) - 58909] & 0xff) & 63);
     l4 = 4L;
    }
    f139(m, l3 + 8L, l7);
    if (((b[((int) l3) - 58904] & 0xff) & 1) == 0) { break L2; }
    l7 = b[((int) l3) - 58903] & 0xff;
    Words.put64(b, ((int) l3) - 58840, 0L);
    Words.put64(b, ((int) l3) - 58848, 0L);
    Words.put64(b, ((int) l3) - 58856, 0L);
    L7: {
     if (l2 == l4) { break L7; }
     if ((l6 = (int) b[((int) (l1 = l1 + l4)) - 58912]) > -1) { break L7; }
     if (l6 + Integer.MIN_VALUE < 2147483616) { break L7; }
     l8 = l6 & 255;
     l9 = (b[((int) l1) - 58911] & 0xff) & 63;
     l10 = (b[((int) l1) - 58910] & 0xff) & 63;
     L8: {
      L9: {
       if (l6 + Integer.MIN_VALUE > 2147483631) { break L9; }
       l6 = ((l9 << 6) | ((l8 << 12) & 61440)) | l10;
       l5 = 3L;
       break L8;
      }
      l6 = ((l10 << 6) | ((l9 << 12) | ((l8 << 18) & 1835008))) | ((b[((int) l1) - 58909] & 0xff) & 63);
      l5 = 4L;
     }
     if (l6 != 20998) { break L7; }
     Core5.f173(m, l3 + 56L, 85376L, 8L, l1 + l5, l2 - (l4 + l5));
     Words.put64(b, ((int) l3) - 58872, Words.get64(b, ((int) l3) - 58848));
     Words.put64(b, ((int) l3) - 58864, Words.get64(b, ((int) l3) - 58840));
     if ((b[((int) l3) - 58856] & 0xff) != 1) { break L7; }
     Words.put64(b, ((int) l0) - 58912, 1L);
     b[((int) (l0 + 8L)) - 58912] = (byte) l7;
     Words.put64(b, ((int) (l0 + 24L)) - 58912, l2 = Words.get64(b, ((int) l3) - 58864));
     Words.put64(b, ((int) l3) - 58889, Words.get64(b, ((int) l3) - 58872));
     Words.put64(b, ((int) (l0 + 9L)) - 58912, Words.get64(b, ((int) l3) - 58896));
     Words.put64(b, ((int) l3) - 58881, l2);
     Words.put64(b, ((int) (l0 + 17L)) - 58912, Words.get64(b, ((int) l3) - 58888));
     break L1;
    }
    Words.put64(b, ((int) l0) - 58888, 0L);
    Words.put64(b, ((int) l0) - 58896, 0L);
    Words.put64(b, ((int) l0) - 58904, 0L);
    Words.put64(b, ((int) l0) - 58912, 0L);
    break L1;
   }
   throw State.trap();
  }
  Words.put64(b, ((int) l0) - 58888, 0L);
  Words.put64(b, ((int) l0) - 58896, 0L);
  Words.put64(b, ((int) l0) - 58904, 0L);
  Words.put64(b, ((int) l0) - 58912, 0L);
 }
 m.g0 = l3 + 80L;
}

static void f141(State m, long l0, int l1, long l2, long l3) {
 final byte[] b = m.bytes;
 long l4 = 0;
 long l5 = 0;
 long l6 = 0;
 long l7 = 0;
 int l8 = 0;
 int l9 = 0;
 int l10 = 0;
 int l11 = 0;
 int l12 = 0;
 int l13 = 0;
 int l14 = 0;
 m.g0 = l4 = m.g0 - 16L;
 L1: {
  L2: {
   L3: {
    L4: {
     L5: {
      L6: {
       L7: {
        L8: {
         L9: {
          L10: {
           L11: {
            if ((l5 = l4) < 16L) { break L11; }
            b[((int) l5) - 58900] = (byte) 0;
            Words.put32(b, ((int) l5) - 58904, 0);
            if (l3 == 0L) { break L3; }
            l10 = l9 = (l8 = (int) b[((int) l2) - 58912]) & 255;
            L12: {
             if (l8 > -1) { break L12; }
             l11 = (b[((int) l2) - 58911] & 0xff) & 63;
             L13: {
              if (l8 + Integer.MIN_VALUE > 2147483615) { break L13; }
              l10 = ((l9 << 6) & 1984) | l11;
              break L12;
             }
             l10 = (b[((int) l2) - 58910] & 0xff) & 63;
             L14: {
              if (l8 + Integer.MIN_VALUE > 2147483631) { break L14; }
              l10 = ((l11 << 6) | ((l9 << 12) & 61440)) | l10;
              break L12;
             }
             l10 = ((l10 << 6) | ((l11 << 12) | ((l9 << 18) & 1835008))) | ((b[((int) l2) - 58909] & 0xff) & 63);
            }
            l4 = -88L;
            L15: {
             L16: while (true) {
              if ((l12 = (Words.get32(b, ((int) (l4 + 85968L)) - 58912) == l10) ? 1 : 0) != 0) { break L15; }
              l11 = (l4 != 0L) ? 1 : 0;
              l4 = l4 + 4L;
              if (l11 != 0) { continue L16; }
              break L16;
             }
            }
            l4 = 1L;
            l11 = l9;
            L17: {
             if (l8 > -1) { break L17; }
             l11 = (b[((int) l2) - 58911] & 0xff) & 63;
             L18: {
              if (l8 + Integer.MIN_VALUE > 2147483615) { break L18; }
              l11 = ((l9 << 6) & 1984) | l11;
              l4 = 2L;
              break L17;
             }
             l10 = (b[((int) l2) - 58910] & 0xff) & 63;
             L19: {
              if (l8 + Integer.MIN_VALUE > 2147483631) { break L19; }
              l11 = ((l11 << 6) | ((l9 << 12) & 61440)) | l10;
              l4 = 3L;
              break L17;
             }
             l11 = ((l10 << 6) | ((l11 << 12) | ((l9 << 18) & 1835008))) | ((b[((int) l2) - 58909] & 0xff) & 63);
             l4 = 4L;
            }
            L20: {
             if (l11 > 20107) { break L20; }
             if ((l10 = l11 + -19968) + Integer.MIN_VALUE <= -2147483612) { break L10; }
             break L8;
            }
            L21: {
             if (l11 > 22234) { break L21; }
             if ((l10 = l11 + -20841) + Integer.MIN_VALUE > -2147483644) { break L9; }
             if (((1 << l10) & 21) == 0) { break L9; }
             break L7;
            }
            if (l11 == 38646) { break L7; }
            if (l11 != 22235) { break L6; }
            break L7;
           }
           throw State.trap();
          }
          if (((1L << (l10 & 0xffffffffL)) & 68719477257L) == 0L) { break L8; }
          break L7;
         }
         switch (l11 + -20108) {
         case 0: case 8: break L7;
         default: break L6;
         }
        }
        if (l11 == 12295) { break L7; }
        if (l11 != 20061) { break L6; }
       }
       Core2.f63(m, l5, l11);
       if (l3 == l4) { break L6; }
       if (((b[((int) l5) - 58911] & 0xff) & 255) == 0) { break L6; }
       if (((b[((int) l5) - 58912] & 0xff) & 1) == 0) { break L6; }
       l10 = (l11 = (int) b[((int) (l4 = l2 + l4)) - 58912]) & 255;
       L22: {
        if (l11 > -1) { break L22; }
        l13 = (b[((int) l4) - 58911] & 0xff) & 63;
        L23: {
         if (l11 + Integer.MIN_VALUE > 2147483615) { break L23; }
         l10 = ((l10 << 6) & 1984) | l13;
         break L22;
        }
        l14 = (b[((int) l4) - 58910] & 0xff) & 63;
        L24: {
         if (l11 + Integer.MIN_VALUE > 2147483631) { break L24; }
         l10 = ((l13 << 6) | ((l10 << 12) & 61440)) | l14;
         break L22;
        }
        l10 = ((l14 << 6) | ((l13 << 12) | ((l10 << 18) & 1835008))) | ((b[((int) l4) - 58909] & 0xff) & 63);
       }
       l4 = -268L;
       L25: {
        L26: while (true) {
         if ((l13 = (Words.get32(b, ((int) (l4 + 83776L)) - 58912) == l10) ? 1 : 0) != 0) { break L25; }
         l11 = (l4 != 0L) ? 1 : 0;
         l4 = l4 + 4L;
         if (l11 != 0) { continue L26; }
         break L26;
        }
       }
       if (l13 != 0) { break L3; }
       l11 = l12 | f130(m, l2, l3);
       if (l8 > -1) { break L5; }
       if (l11 != 0) { break L5; }
       break L4;
      }
      l11 = l12 | f130(m, l2, l3);
      if (l8 > -1) { break L5; }
      if (l11 == 0) { break L4; }
     }
     if (l11 == 0) { break L3; }
     l11 = 0;
     l4 = 0L;
     break L2;
    }
    if (l8 + Integer.MIN_VALUE < 2147483616) { break L3; }
    l11 = (b[((int) l2) - 58911] & 0xff) & 63;
    l10 = (b[((int) l2) - 58910] & 0xff) & 63;
    L27: {
     L28: {
      if (l8 + Integer.MIN_VALUE > 2147483631) { break L28; }
      l11 = ((l11 << 6) | ((l9 << 12) & 61440)) | l10;
      l6 = 3L;
      break L27;
     }
     l11 = ((l10 << 6) | ((l11 << 12) | ((l9 << 18) & 1835008))) | ((b[((int) l2) - 58909] & 0xff) & 63);
     l6 = 4L;
    }
    if (l11 != 26376) { break L3; }
    l11 = 0;
    l4 = 0L;
    if (l3 == l6) { break L2; }
    l4 = 0L;
    if ((l10 = (int) b[((int) (l6 = l2 + l6)) - 58912]) > -1) { break L2; }
    l4 = 0L;
    if (l10 + Integer.MIN_VALUE < 2147483616) { break L2; }
    l12 = l10 & 255;
    l13 = (b[((int) l6) - 58911] & 0xff) & 63;
    l8 = (b[((int) l6) - 58910] & 0xff) & 63;
    L29: {
     L30: {
      if (l10 + Integer.MIN_VALUE > 2147483631) { break L30; }
      l10 = ((l13 << 6) | ((l12 << 12) & 61440)) | l8;
      break L29;
     }
     l10 = ((l8 << 6) | ((l13 << 12) | ((l12 << 18) & 1835008))) | ((b[((int) l6) - 58909] & 0xff) & 63);
    }
    l4 = 0L;
    L31: {
     if (l10 > 31198) { break L31; }
     L32: {
      if (l10 > 22342) { break L32; }
      if (l10 == 20184) { break L3; }
      if (l10 == 20379) { break L3; }
      l6 = 0L;
      l7 = 0L;
      if (l10 == 21345) { break L3; }
      break L1;
     }
     if (l10 == 22343) { break L3; }
     if (l10 == 25910) { break L3; }
     l6 = 0L;
     l7 = 0L;
     if (l10 == 31080) { break L3; }
     break L1;
    }
    L33: {
     if (l10 > 34217) { break L33; }
     if (l10 == 31199) { break L3; }
     if (l10 == 32371) { break L3; }
     l6 = 0L;
     l7 = 0L;
     if (l10 == 32564) { break L3; }
     break L1;
    }
    if (l10 == 34218) { break L3; }
    if (l10 == 36027) { break L3; }
    l6 = 0L;
    l7 = 0L;
    if (l10 != 36153) { break L1; }
   }
   b[((int) l5) - 58900] = (byte) 0;
   Words.put32(b, ((int) l5) - 58904, 0);
   l7 = 1L;
   l4 = l2;
   l6 = l3;
   l11 = l1;
   break L1;
  }
  l6 = 0L;
  l7 = 0L;
 }
 Words.put64(b, ((int) l0) - 58912, l7);
 Words.put16(b, ((int) (l0 + 9L)) - 58912, (short) 0);
 b[((int) (l0 + 8L)) - 58912] = (byte) l11;
 Words.put32(b, ((int) (l0 + 11L)) - 58912, Words.get32(b, ((int) l5) - 58904));
 b[((int) (l0 + 15L)) - 58912] = (byte) (b[((int) l5) - 58900] & 0xff);
 Words.put64(b, ((int) (l0 + 24L)) - 58912, l6);
 Words.put64(b, ((int) (l0 + 16L)) - 58912, l4);
 m.g0 = l5 + 16L;
}

static int f142(State m, long l0) {
 final byte[] b = m.bytes;
 long l1 = 0;
 long l2 = 0;
 long l3 = 0;
 long l4 = 0;
 long l5 = 0;
 long l6 = 0;
 long l7 = 0;
 long l8 = 0;
 int l9 = 0;
 int l10 = 0;
 int l11 = 0;
 int l12 = 0;
 int l13 = 0;
 m.g0 = l1 = m.g0 - 32L;
 L1: {
  L2: {
   L3: {
    L4: {
     L5: {
      L6: {
       L7: {
        if ((l1 = l1) < 16L) { break L7; }
        l2 = Words.get64(b, ((int) l0) - 58912);
        l3 = Words.get64(b, ((int) l0) - 58896);
        l4 = Words.get64(b, ((int) l0) - 58888);
        l5 = Words.get64(b, ((int) l0) - 58880);
        l6 = Words.get64(b, ((int) l0) - 58872);
        L8: {
         L9: {
          L10: {
           if ((l0 = Words.get64(b, ((int) l0) - 58904)) + Long.MIN_VALUE < -9223372036854775805L) { break L10; }
           if (((l9 = b[((int) ((l7 = l2 + l0) + -3L)) - 58912] & 0xff) & 240) != 224) { break L9; }
           l12 = (((l9 << 12) | (l10 = b[((int) (l7 + -1L)) - 58912] & 0xff)) + ((l11 = b[((int) (l7 + -2L)) - 58912] & 0xff) << 6)) + -925824;
           l7 = l0 + -3L;
           if (Words.get32(b, ((int) ((l0 = ((((l9 = ((l11 << 8) | (l10 << 16)) | l9) & 0xffffffffL) * 953497L) >>> 22L) & 1016L) + 66852L)) - 58912) == l9) { break L8; }
           break L5;
          }
          if (l0 == 0L) { break L2; }
         }
         l9 = 0;
         if ((l12 = (int) b[((int) (l2 + (l7 = l0 + -1L))) - 58912]) >= 0) { break L6; }
         l7 = -2L;
         L11: {
          if ((b[((int) ((l8 = l2 + l0) + -2L)) - 58912] & 0xff) + Integer.MIN_VALUE > -2147483457) { break L11; }
          l7 = ((b[((int) (l8 + -3L)) - 58912] & 0xff) + Integer.MIN_VALUE > -2147483457) ? -3L : -4L;
         }
         l12 = (l10 = (int) b[((int) (l0 = l2 + (l7 = l7 + l0))) - 58912]) & 255;
         if (l10 > -1) { break L6; }
         l11 = (b[((int) l0) - 58911] & 0xff) & 63;
         L12: {
          if (l10 + Integer.MIN_VALUE > 2147483615) { break L12; }
          l12 = ((l12 << 6) & 1984) | l11;
          break L6;
         }
         l13 = (b[((int) l0) - 58910] & 0xff) & 63;
         L13: {
          L14: {
           if (l10 + Integer.MIN_VALUE > 2147483631) { break L14; }
           l12 = ((l11 << 6) | ((l12 << 12) & 61440)) | l13;
           break L13;
          }
          l12 = ((l13 << 6) | ((l11 << 12) | ((l12 << 18) & 1835008))) | ((b[((int) l0) - 58909] & 0xff) & 63);
         }
         if ((l12 + -2048) + Integer.MIN_VALUE > -2147420161) { break L6; }
         if (Words.get32(b, ((int) ((l0 = ((((l9 = (((l12 >>> 12) | ((l12 << 2) & 16128)) | ((l12 << 16) & 4128768)) | 8421600) & 0xffffffffL) * 953497L) >>> 22L) & 1016L) + 66852L)) - 58912) != l9) { break L4; }
        }
        if ((b[((int) (l0 + 66856L)) - 58912] & 0xff) == 0) { break L2; }
        break L5;
       }
       throw State.trap();
      }
      if ((l12 + -48) + Integer.MIN_VALUE < -2147483638) { break L1; }
     }
     if (l12 + Integer.MIN_VALUE > -2147483521) { break L4; }
     l9 = 0;
     if (l12 == 95) { break L1; }
     if ((l12 + -44) + Integer.MIN_VALUE < -2147483645) { break L3; }
     if ((l12 + -48) + Integer.MIN_VALUE < -2147483638) { break L1; }
     if (((l12 & 95) + -65) + Integer.MIN_VALUE >= -2147483622) { break L2; }
     break L1;
    }
    l9 = 1;
    L15: {
     L16: {
      if (l12 > 24185) { break L16; }
      L17: {
       if (l12 > 21316) { break L17; }
       L18: {
        if (l12 > 20959) { break L18; }
        if (l12 == 20313) { break L2; }
        if (l12 != 20358) { break L15; }
        break L2;
       }
       if (l12 == 20960) { break L1; }
       if (l12 != 20986) { break L15; }
       break L2;
      }
      L19: {
       switch (l12 + -21317) {
       case 0: case 7: break L2;
       case 1: case 2: case 3: case 4: case 5: case 6: break L15;
       default: break L19;
       }
      }
      if (l12 == 22810) { break L2; }
      if (l12 != 22909) { break L15; }
      break L2;
     }
     L20: {
      if (l12 > 26468) { break L20; }
      L21: {
       switch (l12 + -24186) {
       case 0: break L2;
       case 1: case 2: case 3: break L15;
       case 4: break L1;
       default: break L21;
       }
      }
      L22: {
       switch (l12 + -25968) {
       case 0: case 8: break L1;
       case 1: case 2: case 3: case 4: case 5: case 6: case 7: break L15;
       default: break L22;
       }
      }
      if (l12 != 24319) { break L15; }
      break L2;
     }
     L23: {
      if (l12 > 39191) { break L23; }
      if (l12 == 26469) { break L2; }
      if (l12 != 28857) { break L15; }
      break L3;
     }
     if (l12 == 39192) { break L2; }
     if (l12 == 40670) { break L3; }
    }
    final int t24 = ((l12 + -65296) + Integer.MIN_VALUE > -2147483639) ? 1 : 0;
    break L2;
   }
   Words.put64(b, ((int) l1) - 58888, 0L);
   Words.put64(b, ((int) l1) - 58896, 0L);
   Words.put64(b, ((int) l1) - 58904, 0L);
   Words.put64(b, ((int) l1) - 58912, 0L);
   L25: {
    L26: {
     L27: {
      L28: {
       L29: {
        L30: {
         if (l7 + Long.MIN_VALUE < -9223372036854775805L) { break L30; }
         if (((l12 = b[((int) ((l0 = l2 + l7) + -3L)) - 58912] & 0xff) & 240) != 224) { break L29; }
         Words.put64(b, ((int) l1) - 58896, l2);
         Words.put64(b, ((int) l1) - 58912, 1L);
         Words.put64(b, ((int) l1) - 58888, l7 + -3L);
         Words.put32(b, ((int) l1) - 58904, (((l12 << 12) | (l9 = b[((int) (l0 + -1L)) - 58912] & 0xff)) + ((l10 = b[((int) (l0 + -2L)) - 58912] & 0xff) << 6)) + -925824);
         final int t31 = (int) l1;
         final int t32 = b[((int) ((l0 = ((((l12 = ((l10 << 8) | (l9 << 16)) | l12) & 0xffffffffL) * 953497L) >>> 22L) & 1016L) + 66857L)) - 58912] & 0xff;
         final int t33 = l12 = (Words.get32(b, State.far((int) l0, 66852)) == l12) ? 1 : 0;
         b[t31 - 58899] = (byte) (t33 != 0 ? t32 : 0);
         final int t34 = (int) l1;
         final int t35 = b[((int) (l0 + 66856L)) - 58912] & 0xff;
         final int t36 = l12;
         b[t34 - 58900] = (byte) (t36 != 0 ? t35 : 2);
         break L25;
        }
        if (l7 == 0L) { break L28; }
       }
       if ((l12 = (int) b[((int) (l2 + (l0 = l7 + -1L))) - 58912]) >= 0) { break L27; }
       l0 = -2L;
       L37: {
        if ((b[((int) ((l8 = l2 + l7) + -2L)) - 58912] & 0xff) + Integer.MIN_VALUE > -2147483457) { break L37; }
        l0 = ((b[((int) (l8 + -3L)) - 58912] & 0xff) + Integer.MIN_VALUE > -2147483457) ? -3L : -4L;
       }
       l12 = (l9 = (int) b[((int) (l7 = l2 + (l0 = l0 + l7))) - 58912]) & 255;
       if (l9 > -1) { break L27; }
       l10 = (b[((int) l7) - 58911] & 0xff) & 63;
       L38: {
        if (l9 + Integer.MIN_VALUE > 2147483615) { break L38; }
        l12 = ((l12 << 6) & 1984) | l10;
        break L27;
       }
       l11 = (b[((int) l7) - 58910] & 0xff) & 63;
       L39: {
        L40: {
         if (l9 + Integer.MIN_VALUE > 2147483631) { break L40; }
         l12 = ((l10 << 6) | ((l12 << 12) & 61440)) | l11;
         break L39;
        }
        l12 = ((l11 << 6) | ((l10 << 12) | ((l12 << 18) & 1835008))) | ((b[((int) l7) - 58909] & 0xff) & 63);
       }
       if ((l12 + -2048) + Integer.MIN_VALUE > -2147420161) { break L27; }
       final int t41 = b[((int) ((l7 = ((((l9 = (((l12 >>> 12) | ((l12 << 2) & 16128)) | ((l12 << 16) & 4128768)) | 8421600) & 0xffffffffL) * 953497L) >>> 22L) & 1016L) + 66857L)) - 58912] & 0xff;
       final int t42 = l10 = (Words.get32(b, State.far((int) l7, 66852)) == l9) ? 1 : 0;
       l9 = t42 != 0 ? t41 : 0;
       final int t43 = b[((int) (l7 + 66856L)) - 58912] & 0xff;
       final int t44 = l10;
       l10 = t44 != 0 ? t43 : 2;
       break L26;
      }
      Words.put64(b, ((int) l1) - 58906, 0L);
      Words.put64(b, ((int) l1) - 58912, 0L);
      Words.put64(b, ((int) l1) - 58896, 0L);
      Words.put64(b, ((int) l1) - 58888, 0L);
      break L25;
     }
     final int t45 = l9 = l12 + -48;
     final int t46 = l10 = (l9 + Integer.MIN_VALUE < -2147483638) ? 1 : 0;
     l9 = t46 != 0 ? t45 : 0;
     l10 = l10 != 0 ? 0 : 2;
    }
    Words.put64(b, ((int) l1) - 58888, l0);
    Words.put64(b, ((int) l1) - 58896, l2);
    b[((int) l1) - 58899] = (byte) l9;
    b[((int) l1) - 58900] = (byte) l10;
    Words.put32(b, ((int) l1) - 58904, l12);
    Words.put64(b, ((int) l1) - 58912, 1L);
   }
   final int t47 = Core3.f110(m, l1);
  }
  l9 = 0;
 }
 L48: {
  L49: {
   L50: {
    L51: {
     L52: {
      L53: {
       L54: {
        L55: {
         if (l6 + Long.MIN_VALUE < -9223372036854775805L) { break L55; }
         if (((l12 = b[((int) l5) - 58912] & 0xff) & 240) != 224) { break L54; }
         l10 = (((l11 = b[((int) l5) - 58911] & 0xff) << 8) | ((l13 = b[((int) l5) - 58910] & 0xff) << 16)) | l12;
         l12 = (((l12 << 12) | l13) + (l11 << 6)) + -925824;
         l6 = l6 + -3L;
         l0 = l5 + 3L;
         if (l10 != Words.get32(b, ((int) ((l5 = (((l10 & 0xffffffffL) * 953497L) >>> 22L) & 1016L) + 66852L)) - 58912)) { break L52; }
         break L53;
        }
        if (l6 == 0L) { break L49; }
        l12 = b[((int) l5) - 58912] & 0xff;
       }
       l0 = 1L;
       L56: {
        if (((int) (byte) l12) > -1) { break L56; }
        l10 = (b[((int) l5) - 58911] & 0xff) & 63;
        L57: {
         if (l12 + Integer.MIN_VALUE > -2147483425) { break L57; }
         l12 = ((l12 << 6) & 1984) | l10;
         l0 = 2L;
         break L56;
        }
        l11 = (b[((int) l5) - 58910] & 0xff) & 63;
        L58: {
         if (l12 + Integer.MIN_VALUE > -2147483409) { break L58; }
         l12 = ((l10 << 6) | ((l12 << 12) & 61440)) | l11;
         l0 = 3L;
         break L56;
        }
        l12 = ((l11 << 6) | ((l10 << 12) | ((l12 << 18) & 1835008))) | ((b[((int) l5) - 58909] & 0xff) & 63);
        l0 = 4L;
       }
       l6 = l6 - l0;
       l0 = l5 + l0;
       L59: {
        if ((l12 + -2048) + Integer.MIN_VALUE > -2147420161) { break L59; }
        if (Words.get32(b, ((int) ((l5 = ((((l10 = (((l12 >>> 12) | ((l12 << 2) & 16128)) | ((l12 << 16) & 4128768)) | 8421600) & 0xffffffffL) * 953497L) >>> 22L) & 1016L) + 66852L)) - 58912) == l10) { break L53; }
        break L51;
       }
       if ((l12 + -48) + Integer.MIN_VALUE < -2147483638) { break L49; }
       break L52;
      }
      if ((b[((int) (l5 + 66856L)) - 58912] & 0xff) == 0) { break L49; }
     }
     if (l12 + Integer.MIN_VALUE > -2147483521) { break L51; }
     l10 = 0;
     if (l12 == 95) { break L48; }
     if ((l12 + -44) + Integer.MIN_VALUE < -2147483645) { break L50; }
     if ((l12 + -48) + Integer.MIN_VALUE < -2147483638) { break L48; }
     if (((l12 & 95) + -65) + Integer.MIN_VALUE >= -2147483622) { break L49; }
     break L48;
    }
    l10 = 1;
    L60: {
     L61: {
      if (l12 > 24185) { break L61; }
      L62: {
       L63: {
        if (l12 > 21316) { break L63; }
        L64: {
         if (l12 > 20959) { break L64; }
         if (l12 == 20313) { break L48; }
         if (l12 != 20358) { break L60; }
         break L48;
        }
        if (l12 == 20960) { break L48; }
        if (l12 == 20986) { break L62; }
        break L60;
       }
       L65: {
        switch (l12 + -21317) {
        case 0: case 7: break L49;
        case 1: case 2: case 3: case 4: case 5: case 6: break L60;
        default: break L65;
        }
       }
       if (l12 == 22810) { break L48; }
       if (l12 != 22909) { break L60; }
      }
      l10 = Core3.f111(m, l12, l0, l6);
      break L48;
     }
     L66: {
      if (l12 > 26468) { break L66; }
      L67: {
       switch (l12 + -24186) {
       case 0: break L49;
       case 1: case 2: case 3: break L60;
       case 4: break L48;
       default: break L67;
       }
      }
      L68: {
       switch (l12 + -25968) {
       case 0: case 8: break L49;
       case 1: case 2: case 3: case 4: case 5: case 6: case 7: break L60;
       default: break L68;
       }
      }
      if (l12 != 24319) { break L60; }
      break L49;
     }
     L69: {
      if (l12 > 39191) { break L69; }
      if (l12 == 26469) { break L48; }
      if (l12 != 28857) { break L60; }
      break L50;
     }
     if (l12 == 39192) { break L48; }
     if (l12 == 40670) { break L50; }
    }
    final int t70 = ((l12 + -65296) + Integer.MIN_VALUE > -2147483639) ? 1 : 0;
    break L49;
   }
   Words.put64(b, ((int) l1) - 58888, 0L);
   Words.put64(b, ((int) l1) - 58896, 0L);
   Words.put64(b, ((int) l1) - 58904, 0L);
   Words.put64(b, ((int) l1) - 58912, 0L);
   L71: {
    L72: {
     L73: {
      L74: {
       if (l6 + Long.MIN_VALUE < -9223372036854775805L) { break L74; }
       if (((l12 = b[((int) l0) - 58912] & 0xff) & 240) != 224) { break L73; }
       l10 = b[((int) l0) - 58910] & 0xff;
       l11 = b[((int) l0) - 58911] & 0xff;
       Words.put64(b, ((int) l1) - 58888, l6 + -3L);
       Words.put64(b, ((int) l1) - 58896, l0 + 3L);
       Words.put64(b, ((int) l1) - 58912, 1L);
       Words.put32(b, ((int) l1) - 58904, ((l10 | (l12 << 12)) + (l11 << 6)) + -925824);
       final int t75 = (int) l1;
       final int t76 = b[((int) ((l0 = ((((l12 = ((l11 << 8) | (l10 << 16)) | l12) & 0xffffffffL) * 953497L) >>> 22L) & 1016L) + 66857L)) - 58912] & 0xff;
       final int t77 = l12 = (Words.get32(b, State.far((int) l0, 66852)) == l12) ? 1 : 0;
       b[t75 - 58899] = (byte) (t77 != 0 ? t76 : 0);
       final int t78 = (int) l1;
       final int t79 = b[((int) (l0 + 66856L)) - 58912] & 0xff;
       final int t80 = l12;
       b[t78 - 58900] = (byte) (t80 != 0 ? t79 : 2);
       break L71;
      }
      if (l6 == 0L) { break L72; }
      l12 = b[((int) l0) - 58912] & 0xff;
     }
     l5 = 1L;
     L81: {
      if (((int) (byte) l12) > -1) { break L81; }
      l10 = (b[((int) l0) - 58911] & 0xff) & 63;
      L82: {
       if (l12 + Integer.MIN_VALUE > -2147483425) { break L82; }
       l12 = ((l12 << 6) & 1984) | l10;
       l5 = 2L;
       break L81;
      }
      l11 = (b[((int) l0) - 58910] & 0xff) & 63;
      L83: {
       if (l12 + Integer.MIN_VALUE > -2147483409) { break L83; }
       l12 = ((l10 << 6) | ((l12 << 12) & 61440)) | l11;
       l5 = 3L;
       break L81;
      }
      l12 = ((l11 << 6) | ((l10 << 12) | ((l12 << 18) & 1835008))) | ((b[((int) l0) - 58909] & 0xff) & 63);
      l5 = 4L;
     }
     l6 = l6 - l5;
     l0 = l0 + l5;
     L84: {
      L85: {
       if ((l12 + -2048) + Integer.MIN_VALUE > -2147420161) { break L85; }
       final int t86 = b[((int) ((l5 = ((((l10 = (((l12 >>> 12) | ((l12 << 2) & 16128)) | ((l12 << 16) & 4128768)) | 8421600) & 0xffffffffL) * 953497L) >>> 22L) & 1016L) + 66857L)) - 58912] & 0xff;
       final int t87 = l11 = (Words.get32(b, State.far((int) l5, 66852)) == l10) ? 1 : 0;
       l10 = t87 != 0 ? t86 : 0;
       final int t88 = b[((int) (l5 + 66856L)) - 58912] & 0xff;
       final int t89 = l11;
       l11 = t89 != 0 ? t88 : 2;
       break L84;
      }
      final int t90 = l10 = l12 + -48;
      final int t91 = l11 = (l10 + Integer.MIN_VALUE < -2147483638) ? 1 : 0;
      l10 = t91 != 0 ? t90 : 0;
      l11 = l11 != 0 ? 0 : 2;
     }
     Words.put64(b, ((int) l1) - 58888, l6);
     Words.put64(b, ((int) l1) - 58896, l0);
     b[((int) l1) - 58899] = (byte) l10;
     b[((int) l1) - 58900] = (byte) l11;
     Words.put32(b, ((int) l1) - 58904, l12);
     Words.put64(b, ((int) l1) - 58912, 1L);
     break L71;
    }
    Words.put64(b, ((int) l1) - 58906, 0L);
    Words.put64(b, ((int) l1) - 58912, 0L);
    Words.put64(b, ((int) l1) - 58896, 0L);
    Words.put64(b, ((int) l1) - 58888, 0L);
   }
   final int t92 = Core3.f112(m, l1);
  }
  l10 = 0;
 }
 L93: {
  L94: {
   L95: {
    if (l9 == 0) { break L95; }
    if ((l10 | Core3.f115(m, l3, l4)) == 0) { break L94; }
    l12 = 1;
    break L93;
   }
   if (l10 == 0) { break L94; }
   l12 = 1;
   break L93;
  }
  l12 = Core3.f116(m, l3, l4);
 }
 m.g0 = l1 + 32L;
 return l12;
}

static int f143(State m, long l0, long l1, long l2, long l3) {
 final byte[] b = m.bytes;
 long l4 = 0;
 long l5 = 0;
 long l6 = 0;
 int l7 = 0;
 int l8 = 0;
 int l9 = 0;
 int l10 = 0;
 int l11 = 0;
 int l12 = 0;
 L1: {
  L2: {
   L3: {
    L4: {
     if ((l4 = m.g0) < 16L) { break L4; }
     L5: {
      if (l1 == 0L) { break L5; }
      L6: {
       if ((l7 = (int) b[((int) (l0 + (l5 = l1 + -1L))) - 58912]) >= 0) { break L6; }
       l5 = -2L;
       L7: {
        if ((b[((int) ((l6 = l0 + l1) + -2L)) - 58912] & 0xff) + Integer.MIN_VALUE > -2147483457) { break L7; }
        l5 = ((b[((int) (l6 + -3L)) - 58912] & 0xff) + Integer.MIN_VALUE > -2147483457) ? -3L : -4L;
       }
       l7 = (l8 = (int) b[((int) (l1 = l0 + (l5 = l5 + l1))) - 58912]) & 255;
       if (l8 > -1) { break L6; }
       l9 = (b[((int) l1) - 58911] & 0xff) & 63;
       L8: {
        if (l8 + Integer.MIN_VALUE > 2147483615) { break L8; }
        l7 = ((l7 << 6) & 1984) | l9;
        break L6;
       }
       l10 = (b[((int) l1) - 58910] & 0xff) & 63;
       L9: {
        if (l8 + Integer.MIN_VALUE > 2147483631) { break L9; }
        l7 = ((l9 << 6) | ((l7 << 12) & 61440)) | l10;
        break L6;
       }
       l7 = ((l10 << 6) | ((l9 << 12) | ((l7 << 18) & 1835008))) | ((b[((int) l1) - 58909] & 0xff) & 63);
      }
      l8 = 1;
      if (((l7 & -33) + -65) + Integer.MIN_VALUE < -2147483622) { break L1; }
      if ((l7 + -48) + Integer.MIN_VALUE < -2147483638) { break L1; }
      if ((l7 + -65296) + Integer.MIN_VALUE < -2147483638) { break L1; }
      L10: {
       L11: {
        if (l7 > 21316) { break L11; }
        if ((l7 + -45) + Integer.MIN_VALUE < -2147483645) { break L10; }
        if (l7 == 58) { break L10; }
        if (l7 != 95) { break L5; }
        break L1;
       }
       L12: {
        switch (l7 + -21317) {
        case 0: case 7: break L1;
        case 1: case 2: case 3: case 4: case 5: case 6: break L5;
        default: break L12;
        }
       }
       if (l7 == 24186) { break L1; }
       if (l7 != 24319) { break L5; }
       break L1;
      }
      if (Core5.f172(m, l0, l5) != 0) { break L1; }
     }
     l8 = 0;
     if (l3 == 0L) { break L1; }
     l11 = (l7 = (int) b[((int) l2) - 58912]) & 255;
     L13: {
      L14: {
       if (l7 <= -1) { break L14; }
       l1 = 1L;
       l7 = l11;
       break L13;
      }
      l9 = (b[((int) l2) - 58911] & 0xff) & 63;
      L15: {
       if (l7 + Integer.MIN_VALUE > 2147483615) { break L15; }
       l7 = ((l11 << 6) & 1984) | l9;
       l1 = 2L;
       break L13;
      }
      l10 = (b[((int) l2) - 58910] & 0xff) & 63;
      L16: {
       if (l7 + Integer.MIN_VALUE > 2147483631) { break L16; }
       l7 = ((l9 << 6) | ((l11 << 12) & 61440)) | l10;
       l1 = 3L;
       break L13;
      }
      l7 = ((l10 << 6) | ((l9 << 12) | ((l11 << 18) & 1835008))) | ((b[((int) l2) - 58909] & 0xff) & 63);
      l1 = 4L;
     }
     L17: {
      if (((l7 & 2097119) + -65) + Integer.MIN_VALUE < -2147483622) { break L17; }
      if ((l7 + -48) + Integer.MIN_VALUE < -2147483638) { break L17; }
      if ((l7 + -65296) + Integer.MIN_VALUE < -2147483638) { break L17; }
      L18: {
       L19: {
        if (l7 > 21316) { break L19; }
        if ((l7 + -45) + Integer.MIN_VALUE < -2147483645) { break L18; }
        if (l7 == 58) { break L18; }
        if (l7 == 95) { break L17; }
        break L1;
       }
       L20: {
        switch (l7 + -21317) {
        case 0: case 7: break L17;
        case 1: case 2: case 3: case 4: case 5: case 6: break L1;
        default: break L20;
        }
       }
       if (l7 == 24186) { break L17; }
       if (l7 == 24319) { break L17; }
       break L1;
      }
      if (l3 == l1) { break L1; }
      l7 = (l9 = (int) b[((int) (l1 = l2 + l1)) - 58912]) & 255;
      L21: {
       if (l9 > -1) { break L21; }
       l10 = (b[((int) l1) - 58911] & 0xff) & 63;
       L22: {
        if (l9 + Integer.MIN_VALUE > 2147483615) { break L22; }
        l7 = ((l7 << 6) & 1984) | l10;
        break L21;
       }
       l12 = (b[((int) l1) - 58910] & 0xff) & 63;
       L23: {
        if (l9 + Integer.MIN_VALUE > 2147483631) { break L23; }
        l7 = ((l10 << 6) | ((l7 << 12) & 61440)) | l12;
        break L21;
       }
       l7 = ((l12 << 6) | ((l10 << 12) | ((l7 << 18) & 1835008))) | ((b[((int) l1) - 58909] & 0xff) & 63);
      }
      if (((l7 & 2097119) + -65) + Integer.MIN_VALUE < -2147483622) { break L17; }
      if ((l7 + -48) + Integer.MIN_VALUE < -2147483638) { break L17; }
      if ((l7 + -65296) + Integer.MIN_VALUE > -2147483639) { break L1; }
     }
     l0 = l2;
     l6 = l3;
     L24: {
      L25: while (true) {
       l1 = l0;
       if ((l9 = ((l5 = l6) == 0L) ? 1 : 0) != 0) { break L24; }
       l7 = (l8 = (int) b[((int) l1) - 58912]) & 255;
       l0 = 1L;
       L26: {
        if (l8 > -1) { break L26; }
        l10 = (b[((int) l1) - 58911] & 0xff) & 63;
        L27: {
         if (l8 + Integer.MIN_VALUE > 2147483615) { break L27; }
         l7 = ((l7 << 6) & 1984) | l10;
         l0 = 2L;
         break L26;
        }
        l12 = (b[((int) l1) - 58910] & 0xff) & 63;
        L28: {
         if (l8 + Integer.MIN_VALUE > 2147483631) { break L28; }
         l7 = ((l10 << 6) | ((l7 << 12) & 61440)) | l12;
         l0 = 3L;
         break L26;
        }
        l7 = ((l12 << 6) | ((l10 << 12) | ((l7 << 18) & 1835008))) | ((b[((int) l1) - 58909] & 0xff) & 63);
        l0 = 4L;
       }
       l6 = l5 - l0;
       l0 = l1 + l0;
       if (((l7 & 2097119) + -65) + Integer.MIN_VALUE < -2147483622) { continue L25; }
       break L25;
      }
     }
     l8 = 1;
     L29: {
      if ((l0 = l3 - l5) + Long.MIN_VALUE > -9223372036854775807L) { break L29; }
      L30: {
       switch ((int) l0) {
       case 1: break L30;
       default: break L1;
       }
      }
      if ((l7 = l11 + -65) + Integer.MIN_VALUE > -2147483597) { break L1; }
      if (((1L << (l7 & 0xffffffffL)) & 3404912640138305L) == 0L) { break L1; }
      break L3;
     }
     L31: {
      L32: {
       if (l0 + Long.MIN_VALUE > -9223372036854775806L) { break L32; }
       L33: {
        L34: {
         L35: {
          L36: {
           L37: {
            L38: {
             L39: {
              L40: {
               L41: {
                L42: {
                 switch (l11 + -71) {
                 case 0: break L37;
                 case 1: break L36;
                 case 4: break L34;
                 case 6: break L38;
                 case 13: break L33;
                 case 28: break L41;
                 case 29: break L35;
                 case 36: break L42;
                 case 38: break L40;
                 case 39: break L39;
                 case 41: break L31;
                 default: break L1;
                 }
                }
                if ((l7 = (b[((int) l2) - 58911] & 0xff) + -66) + Integer.MIN_VALUE > -2147483605) { break L1; }
                if (((1L << (l7 & 0xffffffffL)) & 8933534072833L) != 0L) { break L3; }
                break L1;
               }
               switch ((b[((int) l2) - 58911] & 0xff) + -99) {
               case 0: case 10: break L3;
               default: break L1;
               }
              }
              if ((l7 = (b[((int) l2) - 58911] & 0xff) + -65) + Integer.MIN_VALUE > -2147483598) { break L1; }
              if (((1L << (l7 & 0xffffffffL)) & 1152563063818241L) != 0L) { break L3; }
              break L1;
             }
             l8 = ((l7 = b[((int) l2) - 58911] & 0xff) != 109) ? 1 : 0;
             if (l9 != 0) { break L1; }
             if (l7 == 109) { break L2; }
             break L1;
            }
            if ((l7 = b[((int) l2) - 58911] & 0xff) == 66) { break L3; }
            if (l7 == 87) { break L3; }
            break L1;
           }
           if ((l7 = b[((int) l2) - 58911] & 0xff) == 66) { break L3; }
           if (l7 == 87) { break L3; }
           break L1;
          }
          l8 = ((l7 = b[((int) l2) - 58911] & 0xff) != 122) ? 1 : 0;
          if (l9 != 0) { break L1; }
          if (l7 == 122) { break L2; }
          break L1;
         }
         l8 = ((l7 = b[((int) l2) - 58911] & 0xff) != 66) ? 1 : 0;
         if (l9 != 0) { break L1; }
         if (l7 == 66) { break L2; }
         break L1;
        }
        l8 = ((l7 = b[((int) l2) - 58911] & 0xff) != 66) ? 1 : 0;
        if (l9 != 0) { break L1; }
        if (l7 == 66) { break L2; }
        break L1;
       }
       l8 = ((l7 = b[((int) l2) - 58911] & 0xff) != 66) ? 1 : 0;
       if (l9 != 0) { break L1; }
       if (l7 == 66) { break L2; }
       break L1;
      }
      L43: {
       if (l0 != 3L) { break L43; }
       L44: {
        L45: {
         L46: {
          L47: {
           switch (l11 + -71) {
           case 0: break L45;
           case 6: break L46;
           case 36: break L47;
           case 38: break L44;
           default: break L1;
           }
          }
          L48: {
           L49: {
            L50: {
             switch ((b[((int) l2) - 58911] & 0xff) + -72) {
             case 0: break L48;
             case 8: break L49;
             case 15: break L50;
             default: break L1;
             }
            }
            l8 = ((l7 = b[((int) l2) - 58910] & 0xff) != 104) ? 1 : 0;
            if (l9 != 0) { break L1; }
            if (l7 == 104) { break L2; }
            break L1;
           }
           l8 = ((l7 = b[((int) l2) - 58910] & 0xff) != 97) ? 1 : 0;
           if (l9 != 0) { break L1; }
           if (l7 == 97) { break L2; }
           break L1;
          }
          l8 = ((l7 = b[((int) l2) - 58910] & 0xff) != 122) ? 1 : 0;
          if (l9 != 0) { break L1; }
          if (l7 == 122) { break L2; }
          break L1;
         }
         L51: {
          L52: {
           switch ((b[((int) l2) - 58911] & 0xff) + -72) {
           case 0: break L51;
           case 8: break L52;
           default: break L1;
           }
          }
          l8 = ((l7 = b[((int) l2) - 58910] & 0xff) != 97) ? 1 : 0;
          if (l9 != 0) { break L1; }
          if (l7 == 97) { break L2; }
          break L1;
         }
         l8 = ((l7 = b[((int) l2) - 58910] & 0xff) != 122) ? 1 : 0;
         if (l9 != 0) { break L1; }
         if (l7 == 122) { break L2; }
         break L1;
        }
        if ((b[((int) l2) - 58911] & 0xff) != 72) { break L1; }
        l8 = ((l7 = b[((int) l2) - 58910] & 0xff) != 122) ? 1 : 0;
        if (l9 != 0) { break L1; }
        if (l7 == 122) { break L2; }
        break L1;
       }
       L53: {
        if ((l7 = b[((int) l2) - 58911] & 0xff) == 105) { break L53; }
        if (l7 != 65) { break L1; }
        l8 = ((l7 = b[((int) l2) - 58910] & 0xff) != 104) ? 1 : 0;
        if (l9 != 0) { break L1; }
        if (l7 == 104) { break L2; }
        break L1;
       }
       l8 = ((l7 = b[((int) l2) - 58910] & 0xff) != 110) ? 1 : 0;
       if (l9 != 0) { break L1; }
       if (l7 == 110) { break L2; }
       break L1;
      }
      if (l0 + Long.MIN_VALUE > -9223372036854775804L) { break L1; }
      L54: {
       L55: {
        L56: {
         switch (l11 + -71) {
         case 0: break L54;
         case 1: case 2: case 3: case 4: case 5: break L1;
         case 6: break L55;
         default: break L56;
         }
        }
        if (l11 != 107) { break L1; }
        if ((b[((int) l2) - 58911] & 0xff) != 99) { break L1; }
        if ((b[((int) l2) - 58910] & 0xff) != 97) { break L1; }
        l8 = ((l7 = b[((int) l2) - 58909] & 0xff) != 108) ? 1 : 0;
        if (l9 != 0) { break L1; }
        if (l7 == 108) { break L2; }
        break L1;
       }
       if ((b[((int) l2) - 58911] & 0xff) != 98) { break L1; }
       if ((b[((int) l2) - 58910] & 0xff) != 112) { break L1; }
       l8 = ((l7 = b[((int) l2) - 58909] & 0xff) != 115) ? 1 : 0;
       if (l9 != 0) { break L1; }
       if (l7 == 115) { break L2; }
       break L1;
      }
      if ((b[((int) l2) - 58911] & 0xff) != 98) { break L1; }
      if ((b[((int) l2) - 58910] & 0xff) != 112) { break L1; }
      l8 = ((l7 = b[((int) l2) - 58909] & 0xff) != 115) ? 1 : 0;
      if (l9 != 0) { break L1; }
      if (l7 == 115) { break L2; }
      break L1;
     }
     l8 = (((l7 = (b[((int) l2) - 58911] & 0xff) + -116) & 251) != 0) ? 1 : 0;
     if (l9 != 0) { break L1; }
     if (((l7 & -5) & 255) != 0) { break L1; }
     break L2;
    }
    throw State.trap();
   }
   l8 = 0;
   if (l9 != 0) { break L1; }
  }
  l7 = (l8 = (int) b[((int) l1) - 58912]) & 255;
  L57: {
   if (l8 > -1) { break L57; }
   l9 = (b[((int) l1) - 58911] & 0xff) & 63;
   L58: {
    if (l8 + Integer.MIN_VALUE > 2147483615) { break L58; }
    l7 = ((l7 << 6) & 1984) | l9;
    break L57;
   }
   l10 = (b[((int) l1) - 58910] & 0xff) & 63;
   L59: {
    if (l8 + Integer.MIN_VALUE > 2147483631) { break L59; }
    l7 = ((l9 << 6) | ((l7 << 12) & 61440)) | l10;
    break L57;
   }
   l7 = ((l10 << 6) | ((l9 << 12) | ((l7 << 18) & 1835008))) | ((b[((int) l1) - 58909] & 0xff) & 63);
  }
  l8 = (((l7 + -48) + Integer.MIN_VALUE < -2147483638) | ((l7 + -65296) + Integer.MIN_VALUE < -2147483638)) ? 1 : 0;
 }
 m.g0 = l4;
 return l8;
}

static int f144(State m, long l0, long l1) {
 final byte[] b = m.bytes;
 long l2 = 0;
 long l3 = 0;
 long l4 = 0;
 int l5 = 0;
 int l6 = 0;
 int l7 = 0;
 int l8 = 0;
 L1: {
  if ((l2 = m.g0) < 16L) { break L1; }
  L2: {
   L3: {
    if (l1 == 0L) { break L3; }
    if (((int) b[((int) ((l3 = l0 + l1) + -1L)) - 58912]) > -1) { break L3; }
    l4 = -2L;
    L4: {
     if ((b[((int) (l3 + -2L)) - 58912] & 0xff) + Integer.MIN_VALUE > -2147483457) { break L4; }
     l4 = ((b[((int) (l3 + -3L)) - 58912] & 0xff) + Integer.MIN_VALUE > -2147483457) ? -3L : -4L;
    }
    if ((l5 = (int) b[((int) (l3 = (l0 + l4) + l1)) - 58912]) > -1) { break L3; }
    if (l5 + Integer.MIN_VALUE < 2147483616) { break L3; }
    l6 = l5 & 255;
    l7 = (b[((int) l3) - 58911] & 0xff) & 63;
    l8 = (b[((int) l3) - 58910] & 0xff) & 63;
    L5: {
     L6: {
      if (l5 + Integer.MIN_VALUE > 2147483631) { break L6; }
      l6 = ((l7 << 6) | ((l6 << 12) & 61440)) | l8;
      break L5;
     }
     l6 = ((l8 << 6) | ((l7 << 12) | ((l6 << 18) & 1835008))) | ((b[((int) l3) - 58909] & 0xff) & 63);
    }
    l5 = 1;
    if (l6 == 21608) { break L2; }
    if (l6 == 36913) { break L2; }
   }
   l5 = 1;
   if (Core5.f170(m, 83980L, 1L, 83976L, 1L, l0, l1) != 0) { break L2; }
   l5 = Core5.f170(m, 83992L, 1L, 83984L, 2L, l0, l1);
  }
  m.g0 = l2;
  final int t7 = l5;
  return t7;
 }
 throw State.trap();
}

static int f145(State m, long l0, long l1) {
 final byte[] b = m.bytes;
 int l2 = 0;
 int l3 = 0;
 int l4 = 0;
 int l5 = 0;
 int l6 = 0;
 long l7 = 0;
 L1: {
  if (m.g0 < 16L) { break L1; }
  l2 = 0;
  L2: {
   if (l1 == 0L) { break L2; }
   l4 = (l3 = (int) b[((int) l0) - 58912]) & 255;
   l7 = 1L;
   L3: {
    if (l3 > -1) { break L3; }
    l5 = (b[((int) l0) - 58911] & 0xff) & 63;
    L4: {
     if (l3 + Integer.MIN_VALUE > 2147483615) { break L4; }
     l4 = ((l4 << 6) & 1984) | l5;
     l7 = 2L;
     break L3;
    }
    l6 = (b[((int) l0) - 58910] & 0xff) & 63;
    L5: {
     if (l3 + Integer.MIN_VALUE > 2147483631) { break L5; }
     l4 = ((l5 << 6) | ((l4 << 12) & 61440)) | l6;
     l7 = 3L;
     break L3;
    }
    l4 = ((l6 << 6) | ((l5 << 12) | ((l4 << 18) & 1835008))) | ((b[((int) l0) - 58909] & 0xff) & 63);
    l7 = 4L;
   }
   L6: {
    if (l4 == 65296) { break L6; }
    if (l4 != 48) { break L2; }
   }
   if (l1 == l7) { break L2; }
   l2 = (l4 = (int) b[((int) (l1 = l0 + l7)) - 58912]) & 255;
   L7: {
    if (l4 > -1) { break L7; }
    l3 = (b[((int) l1) - 58911] & 0xff) & 63;
    L8: {
     if (l4 + Integer.MIN_VALUE > 2147483615) { break L8; }
     l2 = ((l2 << 6) & 1984) | l3;
     break L7;
    }
    l5 = (b[((int) l1) - 58910] & 0xff) & 63;
    L9: {
     if (l4 + Integer.MIN_VALUE > 2147483631) { break L9; }
     l2 = ((l3 << 6) | ((l2 << 12) & 61440)) | l5;
     break L7;
    }
    l2 = ((l5 << 6) | ((l3 << 12) | ((l2 << 18) & 1835008))) | ((b[((int) l1) - 58909] & 0xff) & 63);
   }
   l2 = (((l2 + -48) + Integer.MIN_VALUE < -2147483638) | ((l2 + -65296) + Integer.MIN_VALUE < -2147483638)) ? 1 : 0;
  }
  final int t10 = l2;
  return t10;
 }
 throw State.trap();
}

static int f146(State m, int l0, int l1, int l2, int l3, int l4, long l5, long l6) {
 long l7 = 0;
 int l8 = 0;
 L1: {
  if ((l7 = m.g0) < 16L) { break L1; }
  L2: {
   L3: {
    L4: {
     L5: {
      L6: {
       switch ((int) ((l3 & 0xffffffffL) & 255L)) {
       case 1: break L6;
       case 2: break L4;
       default: break L5;
       }
      }
      if ((l1 & 255) + Integer.MIN_VALUE < (l4 & 255) + Integer.MIN_VALUE) { break L4; }
     }
     l8 = 1;
     L7: {
      if ((l0 & 1) != 0) { break L7; }
      L8: {
       L9: {
        if (l2 > 29589) { break L9; }
        L10: {
         if (l2 > 22776) { break L10; }
         if (l2 == 20191) { break L3; }
         if (l2 == 20237) { break L3; }
         if (l2 != 20336) { break L8; }
         break L3;
        }
        L11: {
         if (l2 > 25419) { break L11; }
         if (l2 == 22777) { break L3; }
         if (l2 != 25342) { break L8; }
         break L3;
        }
        if (l2 == 25420) { break L3; }
        if (l2 != 26578) { break L8; }
        break L3;
       }
       L12: {
        if (l2 > 36143) { break L12; }
        L13: {
         switch (l2 + -36014) {
         case 0: case 5: break L3;
         case 1: case 2: case 3: case 4: break L8;
         default: break L13;
         }
        }
        if (l2 == 29590) { break L3; }
        if (l2 != 32902) { break L8; }
        break L3;
       }
       if (l2 == 36144) { break L3; }
       if (l2 == 38470) { break L3; }
       if (l2 == 38520) { break L3; }
      }
      if ((l2 + -21441) + Integer.MIN_VALUE < -2147483644) { break L4; }
     }
     if ((l3 & 255) != 1) { break L2; }
     if (((1 << (l3 = l4 & 255)) & 65470) != 0) { break L2; }
     L14: {
      if (l3 != 0) { break L14; }
      if (Core3.f109(m, l0, l1, l5, l6) == 0) { break L4; }
      m.g0 = l7;
      return 1;
     }
     if (Core3.f108(m, l5, l6) != 0) { break L4; }
     m.g0 = l7;
     return 1;
    }
    l8 = 1;
    if (l2 == 21317) { break L2; }
    if (l2 == 24319) { break L2; }
   }
   l8 = ((l2 + -65296) + Integer.MIN_VALUE < -2147483638) ? 1 : 0;
  }
  m.g0 = l7;
  final int t15 = l8;
  return t15;
 }
 throw State.trap();
}
}
