// The proved module for WebAssembly as Java; made by bindings/java/core.py.
package chinesenumber;

final class Core5 {
static int f147(State m, int l0, int l1, long l2, long l3, int l4, long l5, long l6) {
 final byte[] b = m.bytes;
 long l7 = 0;
 long l8 = 0;
 int l9 = 0;
 int l10 = 0;
 int l11 = 0;
 int l12 = 0;
 int l13 = 0;
 m.g0 = l7 = m.g0 - 16L;
 L1: {
  L2: {
   L3: {
    L4: {
     if ((l7 = l7) < 16L) { break L4; }
     L5: {
      L6: {
       if (l4 == 20841) { break L6; }
       if (l4 != 20004) { break L5; }
      }
      if (f150(m, l0, l1, l2, l3) == 0) { break L5; }
      L7: {
       L8: {
        L9: {
         L10: {
          L11: {
           if (l6 + Long.MIN_VALUE < -9223372036854775805L) { break L11; }
           if (((l9 = b[((int) l5) - 58912] & 0xff) & 240) != 224) { break L10; }
           if (Words.get32(b, ((int) ((l8 = ((((l12 = (((l10 = b[((int) l5) - 58911] & 0xff) << 8) | ((l11 = b[((int) l5) - 58910] & 0xff) << 16)) | l9) & 0xffffffffL) * 953497L) >>> 22L) & 1016L) + 66852L)) - 58912) == l12) { break L9; }
           l12 = 1;
           break L1;
          }
          L12: {
           if (!(l6 == 0L)) { break L12; }
           l12 = 1;
           break L1;
          }
          l9 = b[((int) l5) - 58912] & 0xff;
         }
         L13: {
          if (((int) (byte) l9) > -1) { break L13; }
          l12 = (b[((int) l5) - 58911] & 0xff) & 63;
          L14: {
           if (l9 + Integer.MIN_VALUE > -2147483425) { break L14; }
           l9 = ((l9 << 6) & 1984) | l12;
           break L13;
          }
          l10 = (b[((int) l5) - 58910] & 0xff) & 63;
          L15: {
           if (l9 + Integer.MIN_VALUE > -2147483409) { break L15; }
           l9 = ((l12 << 6) | ((l9 << 12) & 61440)) | l10;
           break L13;
          }
          l9 = ((l10 << 6) | ((l12 << 12) | ((l9 << 18) & 1835008))) | ((b[((int) l5) - 58909] & 0xff) & 63);
         }
         L16: {
          if ((l9 + -2048) + Integer.MIN_VALUE > -2147420161) { break L16; }
          if (Words.get32(b, ((int) ((l8 = ((((l12 = (((l9 >>> 12) | ((l9 << 2) & 16128)) | ((l9 << 16) & 4128768)) | 8421600) & 0xffffffffL) * 953497L) >>> 22L) & 1016L) + 66852L)) - 58912) == l12) { break L8; }
          l12 = 1;
          break L1;
         }
         L17: {
          if ((l10 = l9 + -48) + Integer.MIN_VALUE >= -2147483638) { break L17; }
          l11 = 0;
          break L7;
         }
         l12 = 1;
         break L1;
        }
        l9 = (((l9 << 12) | l11) + (l10 << 6)) + -925824;
       }
       l10 = b[((int) (l8 + 66857L)) - 58912] & 0xff;
       l12 = 1;
       l11 = 0;
       L18: {
        switch ((int) (b[((int) (l8 + 66856L)) - 58912] & 0xffL)) {
        case 1: break L18;
        case 2: break L1;
        default: break L7;
        }
       }
       l11 = 1;
       l12 = 1;
       if ((l1 & 255) + Integer.MIN_VALUE < (l10 & 255) + Integer.MIN_VALUE) { break L1; }
      }
      l12 = 1;
      L19: {
       if ((l0 & 1) != 0) { break L19; }
       L20: {
        L21: {
         if (l9 > 29589) { break L21; }
         L22: {
          if (l9 > 22776) { break L22; }
          if (l9 == 20191) { break L1; }
          if (l9 == 20237) { break L1; }
          if (l9 != 20336) { break L20; }
          break L1;
         }
         L23: {
          if (l9 > 25419) { break L23; }
          if (l9 == 22777) { break L1; }
          if (l9 != 25342) { break L20; }
          break L1;
         }
         if (l9 == 25420) { break L1; }
         if (l9 != 26578) { break L20; }
         break L1;
        }
        L24: {
         if (l9 > 36143) { break L24; }
         L25: {
          switch (l9 + -36014) {
          case 0: case 5: break L1;
          case 1: case 2: case 3: case 4: break L20;
          default: break L25;
          }
         }
         if (l9 == 29590) { break L1; }
         if (l9 != 32902) { break L20; }
         break L1;
        }
        if (l9 == 36144) { break L1; }
        if (l9 == 38470) { break L1; }
        if (l9 == 38520) { break L1; }
       }
       l12 = 1;
       if (((((l9 + -21445) + Integer.MIN_VALUE > 2147483643) ? 1 : 0) | (l11 ^ 1)) != 0) { break L1; }
       if ((l10 & 255) != 1) { break L5; }
       break L1;
      }
      l12 = 1;
      if ((l11 & (((l10 & 255) != 1) ? 1 : 0)) != 1) { break L1; }
     }
     L26: {
      if ((l12 = (l4 == 20491) ? 1 : 0) != 0) { break L26; }
      if (l4 == 20010) { break L26; }
      l12 = ((l4 == 20010) ? 1 : 0) | l12;
      break L3;
     }
     l10 = f150(m, l0, l1, l2, l3);
     if (l6 == 0L) { break L2; }
     l12 = (l9 = (int) b[((int) l5) - 58912]) & 255;
     l8 = 1L;
     L27: {
      if (l9 > -1) { break L27; }
      l11 = (b[((int) l5) - 58911] & 0xff) & 63;
      L28: {
       if (l9 + Integer.MIN_VALUE > 2147483615) { break L28; }
       l12 = ((l12 << 6) & 1984) | l11;
       l8 = 2L;
       break L27;
      }
      l13 = (b[((int) l5) - 58910] & 0xff) & 63;
      L29: {
       if (l9 + Integer.MIN_VALUE > 2147483631) { break L29; }
       l12 = ((l11 << 6) | ((l12 << 12) & 61440)) | l13;
       l8 = 3L;
       break L27;
      }
      l12 = ((l13 << 6) | ((l11 << 12) | ((l12 << 18) & 1835008))) | ((b[((int) l5) - 58909] & 0xff) & 63);
      l8 = 4L;
     }
     L30: {
      if ((l9 = (l12 == 33836) ? 1 : 0) != 0) { break L30; }
      if (l12 == 19975) { break L30; }
      l12 = ((l12 == 19975) ? 1 : 0) | l9;
      break L3;
     }
     l12 = 1;
     if (l10 == 0) { break L1; }
     if (l6 == l8) { break L2; }
     l9 = (l10 = (int) b[((int) (l8 = l5 + l8)) - 58912]) & 255;
     L31: {
      if (l10 > -1) { break L31; }
      l11 = (b[((int) l8) - 58911] & 0xff) & 63;
      L32: {
       if (l10 + Integer.MIN_VALUE > 2147483615) { break L32; }
       l9 = ((l9 << 6) & 1984) | l11;
       break L31;
      }
      l13 = (b[((int) l8) - 58910] & 0xff) & 63;
      L33: {
       if (l10 + Integer.MIN_VALUE > 2147483631) { break L33; }
       l9 = ((l11 << 6) | ((l9 << 12) & 61440)) | l13;
       break L31;
      }
      l9 = ((l13 << 6) | ((l11 << 12) | ((l9 << 18) & 1835008))) | ((b[((int) l8) - 58909] & 0xff) & 63);
     }
     if ((l9 + -19968) + Integer.MIN_VALUE < -2147462656) { break L1; }
     break L2;
    }
    throw State.trap();
   }
   if (l12 == 0) { break L2; }
   l12 = 1;
   break L1;
  }
  l12 = 0;
  L34: {
   if (l4 == 21315) { break L34; }
   if (l4 != 20191) { break L1; }
  }
  if (l6 == 0L) { break L1; }
  l4 = (l9 = (int) b[((int) l5) - 58912]) & 255;
  L35: {
   if (l9 > -1) { break L35; }
   l10 = (b[((int) l5) - 58911] & 0xff) & 63;
   L36: {
    if (l9 + Integer.MIN_VALUE > 2147483615) { break L36; }
    l4 = ((l4 << 6) & 1984) | l10;
    break L35;
   }
   l11 = (b[((int) l5) - 58910] & 0xff) & 63;
   L37: {
    if (l9 + Integer.MIN_VALUE > 2147483631) { break L37; }
    l4 = ((l10 << 6) | ((l4 << 12) & 61440)) | l11;
    break L35;
   }
   l4 = ((l11 << 6) | ((l10 << 12) | ((l4 << 18) & 1835008))) | ((b[((int) l5) - 58909] & 0xff) & 63);
  }
  L38: {
   L39: {
    if (l4 > 24084) { break L39; }
    L40: {
     if (l4 > 21344) { break L40; }
     if (l4 == 20239) { break L38; }
     if (l4 == 20811) { break L38; }
     break L1;
    }
    if (l4 == 21345) { break L38; }
    if (l4 == 23433) { break L38; }
    break L1;
   }
   L41: {
    if (l4 > 29925) { break L41; }
    if (l4 == 24085) { break L38; }
    if (l4 == 28966) { break L38; }
    break L1;
   }
   if (l4 == 29926) { break L38; }
   if (l4 == 36203) { break L38; }
   if (l4 != 31859) { break L1; }
  }
  if (l3 == 0L) { break L1; }
  L42: {
   if ((l4 = (int) b[((int) ((l5 = l2 + l3) + -1L)) - 58912]) >= 0) { break L42; }
   l6 = -2L;
   L43: {
    if ((b[((int) (l5 + -2L)) - 58912] & 0xff) + Integer.MIN_VALUE > -2147483457) { break L43; }
    l6 = ((b[((int) (l5 + -3L)) - 58912] & 0xff) + Integer.MIN_VALUE > -2147483457) ? -3L : -4L;
   }
   l4 = (l12 = (int) b[((int) (l5 = (l2 + l6) + l3)) - 58912]) & 255;
   if (l12 > -1) { break L42; }
   l9 = (b[((int) l5) - 58911] & 0xff) & 63;
   L44: {
    if (l12 + Integer.MIN_VALUE > 2147483615) { break L44; }
    l4 = ((l4 << 6) & 1984) | l9;
    break L42;
   }
   l10 = (b[((int) l5) - 58910] & 0xff) & 63;
   L45: {
    if (l12 + Integer.MIN_VALUE > 2147483631) { break L45; }
    l4 = ((l9 << 6) | ((l4 << 12) & 61440)) | l10;
    break L42;
   }
   l4 = ((l10 << 6) | ((l9 << 12) | ((l4 << 18) & 1835008))) | ((b[((int) l5) - 58909] & 0xff) & 63);
  }
  L46: {
   L47: {
    L48: {
     L49: {
      L50: {
       L51: {
        if ((l4 + -2048) + Integer.MIN_VALUE > -2147420161) { break L51; }
        if (Words.get32(b, State.far((int) (l5 = ((((l12 = (((l4 >>> 12) | ((l4 << 2) & 16128)) | ((l4 << 16) & 4128768)) | 8421600) & 0xffffffffL) * 953497L) >>> 22L) & 1016L), 66852)) != l12) { break L46; }
        l12 = b[((int) (l5 + 66857L)) - 58912] & 0xff;
        l9 = 0;
        switch ((int) (b[((int) (l5 + 66856L)) - 58912] & 0xffL)) {
        case 1: break L50;
        case 2: break L46;
        default: break L49;
        }
       }
       if ((l4 + -58) + Integer.MIN_VALUE < 2147483638) { break L46; }
       if ((l0 & 1) != 0) { break L46; }
       l12 = l4 + -48;
       l9 = 0;
       break L48;
      }
      if ((l1 & 255) + Integer.MIN_VALUE < (l12 & 255) + Integer.MIN_VALUE) { break L46; }
      l9 = 1;
     }
     if ((l0 & 1) != 0) { break L47; }
    }
    L52: {
     L53: {
      if (l4 > 29589) { break L53; }
      L54: {
       if (l4 > 22776) { break L54; }
       if (l4 == 20191) { break L46; }
       if (l4 == 20237) { break L46; }
       if (l4 != 20336) { break L52; }
       break L46;
      }
      L55: {
       if (l4 > 25419) { break L55; }
       if (l4 == 22777) { break L46; }
       if (l4 == 25342) { break L46; }
       break L52;
      }
      if (l4 == 25420) { break L46; }
      if (l4 == 26578) { break L46; }
      break L52;
     }
     L56: {
      if (l4 > 36143) { break L56; }
      L57: {
       switch (l4 + -36014) {
       case 0: case 5: break L46;
       case 1: case 2: case 3: case 4: break L52;
       default: break L57;
       }
      }
      if (l4 == 29590) { break L46; }
      if (l4 == 32902) { break L46; }
      break L52;
     }
     if (l4 == 36144) { break L46; }
     if (l4 == 38470) { break L46; }
     if (l4 == 38520) { break L46; }
    }
    if ((l4 + -21441) + Integer.MIN_VALUE < -2147483644) { break L46; }
   }
   if (l9 == 0) { break L46; }
   if ((l12 & 255) == 0) { break L46; }
   l12 = 1;
   break L1;
  }
  L58: while (true) {
   L59: {
    if ((l4 = (int) b[((int) (l2 + (l5 = l3 + -1L))) - 58912]) >= 0) { break L59; }
    l5 = -2L;
    L60: {
     if ((b[((int) ((l6 = l2 + l3) + -2L)) - 58912] & 0xff) + Integer.MIN_VALUE > -2147483457) { break L60; }
     l5 = ((b[((int) (l6 + -3L)) - 58912] & 0xff) + Integer.MIN_VALUE > -2147483457) ? -3L : -4L;
    }
    l4 = (l12 = (int) b[((int) (l3 = l2 + (l5 = l5 + l3))) - 58912]) & 255;
    if (l12 > -1) { break L59; }
    l0 = (b[((int) l3) - 58911] & 0xff) & 63;
    L61: {
     if (l12 + Integer.MIN_VALUE > 2147483615) { break L61; }
     l4 = ((l4 << 6) & 1984) | l0;
     break L59;
    }
    l1 = (b[((int) l3) - 58910] & 0xff) & 63;
    L62: {
     if (l12 + Integer.MIN_VALUE > 2147483631) { break L62; }
     l4 = ((l0 << 6) | ((l4 << 12) & 61440)) | l1;
     break L59;
    }
    l4 = ((l1 << 6) | ((l0 << 12) | ((l4 << 18) & 1835008))) | ((b[((int) l3) - 58909] & 0xff) & 63);
   }
   Core2.f63(m, l7 + 8L, l4);
   if ((l12 = ((l5 != 0L) & (((l4 + -65296) + Integer.MIN_VALUE < -2147483638) | ((b[((int) l7) - 58904] & 0xff) == 1))) ? 1 : 0) != 1) { break L1; }
   L63: {
    if ((l4 = (int) b[((int) ((l3 = l2 + l5) + -1L)) - 58912]) >= 0) { break L63; }
    l6 = -2L;
    L64: {
     if ((b[((int) (l3 + -2L)) - 58912] & 0xff) + Integer.MIN_VALUE > -2147483457) { break L64; }
     l6 = ((b[((int) (l3 + -3L)) - 58912] & 0xff) + Integer.MIN_VALUE > -2147483457) ? -3L : -4L;
    }
    l4 = (l0 = (int) b[((int) (l3 = (l2 + l6) + l5)) - 58912]) & 255;
    if (l0 > -1) { break L63; }
    l1 = (b[((int) l3) - 58911] & 0xff) & 63;
    L65: {
     if (l0 + Integer.MIN_VALUE > 2147483615) { break L65; }
     l4 = ((l4 << 6) & 1984) | l1;
     break L63;
    }
    l9 = (b[((int) l3) - 58910] & 0xff) & 63;
    L66: {
     if (l0 + Integer.MIN_VALUE > 2147483631) { break L66; }
     l4 = ((l1 << 6) | ((l4 << 12) & 61440)) | l9;
     break L63;
    }
    l4 = ((l9 << 6) | ((l1 << 12) | ((l4 << 18) & 1835008))) | ((b[((int) l3) - 58909] & 0xff) & 63);
   }
   L67: {
    if (l4 > 40669) { break L67; }
    if (l4 == 46) { break L1; }
    l3 = l5;
    if (l4 != 28857) { continue L58; }
    break L1;
   }
   if (l4 == 65294) { break L1; }
   l3 = l5;
   if (l4 != 40670) { continue L58; }
   break L58;
  }
 }
 m.g0 = l7 + 16L;
 return l12;
}

static int f148_1(State m, int l0, int l1, long l2, long l3, int l4, long l5, long l6, long l7, long l8, long l9, int l10, int l11, int l12, int l13) {
 final byte[] b = m.bytes;
 int exit = 0;
 PART: {
  L12: {
   L13: {
    L14: {
     L15: {
      if (l4 > 21447) { break L15; }
      L16: {
       if (l4 > 164) { break L16; }
       l10 = 0;
       switch (l4 + -32) {
       case 0: exit = 1; break PART;
       case 5: exit = 2; break PART;
       case 12: break L13;
       case 13: exit = 3; break PART;
       case 14: break L14;
       default: exit = 4; break PART;
       }
      }
      L17: {
       if (l4 > 19978) { break L17; }
       if (l4 == 165) { exit = 5; break PART; }
       if (l4 == 8240) { exit = 2; break PART; }
       if (l4 == 8722) { exit = 3; break PART; }
       l10 = 0;
       exit = 4; break PART;
      }
      if (l4 == 19979) { exit = 6; break PART; }
      if (l4 == 20043) { exit = 7; break PART; }
      if (l4 == 20998) { exit = 8; break PART; }
      l10 = 0;
      exit = 4; break PART;
     }
     L18: {
      L19: {
       if (l4 > 40669) { break L19; }
       L20: {
        if (l4 > 35999) { break L20; }
        if (l4 == 21448) { exit = 9; break PART; }
        if (l4 == 28857) { break L18; }
        l10 = 0;
        exit = 4; break PART;
       }
       if (l4 == 36000) { exit = 10; break PART; }
       if (l4 == 36127) { exit = 10; break PART; }
       l10 = 0;
       exit = 4; break PART;
      }
      l10 = 0;
      L21: {
       switch (l4 + -65285) {
       case 0: exit = 2; break PART;
       case 1: case 2: case 3: case 4: case 5: case 6: exit = 4; break PART;
       case 7: break L12;
       case 8: exit = 3; break PART;
       case 9: break L14;
       default: break L21;
       }
      }
      if (l4 == 65509) { exit = 5; break PART; }
      if (l4 == 40670) { break L18; }
      l10 = 0;
      exit = 4; break PART;
     }
     L22: {
      if (l3 == 0L) { break L22; }
      l10 = 0;
      L23: {
       if ((l4 = (int) b[((int) ((l8 = l2 + l3) + -1L)) - 58912]) >= 0) { break L23; }
       l9 = -2L;
       L24: {
        if ((b[((int) (l8 + -2L)) - 58912] & 0xff) + Integer.MIN_VALUE > -2147483457) { break L24; }
        l9 = ((b[((int) (l8 + -3L)) - 58912] & 0xff) + Integer.MIN_VALUE > -2147483457) ? -3L : -4L;
       }
       l4 = (l11 = (int) b[((int) (l8 = (l2 + l9) + l3)) - 58912]) & 255;
       if (l11 > -1) { break L23; }
       l12 = (b[((int) l8) - 58911] & 0xff) & 63;
       L25: {
        if (l11 + Integer.MIN_VALUE > 2147483615) { break L25; }
        l4 = ((l4 << 6) & 1984) | l12;
        break L23;
       }
       l13 = (b[((int) l8) - 58910] & 0xff) & 63;
       L26: {
        if (l11 + Integer.MIN_VALUE > 2147483631) { break L26; }
        l4 = ((l12 << 6) | ((l4 << 12) & 61440)) | l13;
        break L23;
       }
       l4 = ((l13 << 6) | ((l12 << 12) | ((l4 << 18) & 1835008))) | ((b[((int) l8) - 58909] & 0xff) & 63);
      }
      if ((l4 + -48) + Integer.MIN_VALUE < -2147483638) { exit = 4; break PART; }
      if ((l4 + -65296) + Integer.MIN_VALUE < -2147483638) { exit = 4; break PART; }
     }
     L27: {
      if (f150(m, l0, l1, l2, l3) != 0) { break L27; }
      l10 = 0;
      exit = 4; break PART;
     }
     L28: {
      L29: {
       L30: {
        if (l6 + Long.MIN_VALUE < -9223372036854775805L) { break L30; }
        if (((l4 = b[((int) l5) - 58912] & 0xff) & 240) != 224) { break L29; }
        final int t31 = b[((int) ((l3 = ((((l11 = (((l10 = b[((int) l5) - 58911] & 0xff) << 8) | ((l13 = b[((int) l5) - 58910] & 0xff) << 16)) | l4) & 0xffffffffL) * 953497L) >>> 22L) & 1016L) + 66857L)) - 58912] & 0xff;
        final int t32 = l11 = (Words.get32(b, State.far((int) l3, 66852)) == l11) ? 1 : 0;
        l12 = t32 != 0 ? t31 : 0;
        final int t33 = b[((int) (l3 + 66856L)) - 58912] & 0xff;
        final int t34 = l11;
        l11 = t34 != 0 ? t33 : 2;
        l4 = (((l4 << 12) | l13) + (l10 << 6)) + -925824;
        l6 = l6 + -3L;
        l5 = l5 + 3L;
        break L28;
       }
       L35: {
        if (!(l6 == 0L)) { break L35; }
        l10 = 0;
        exit = 4; break PART;
       }
       l4 = b[((int) l5) - 58912] & 0xff;
      }
      l3 = 1L;
      L36: {
       if (((int) (byte) l4) > -1) { break L36; }
       l10 = (b[((int) l5) - 58911] & 0xff) & 63;
       L37: {
        if (l4 + Integer.MIN_VALUE > -2147483425) { break L37; }
        l4 = ((l4 << 6) & 1984) | l10;
        l3 = 2L;
        break L36;
       }
       l11 = (b[((int) l5) - 58910] & 0xff) & 63;
       L38: {
        if (l4 + Integer.MIN_VALUE > -2147483409) { break L38; }
        l4 = ((l10 << 6) | ((l4 << 12) & 61440)) | l11;
        l3 = 3L;
        break L36;
       }
       l4 = ((l11 << 6) | ((l10 << 12) | ((l4 << 18) & 1835008))) | ((b[((int) l5) - 58909] & 0xff) & 63);
       l3 = 4L;
      }
      l6 = l6 - l3;
      l5 = l5 + l3;
      L39: {
       if ((l4 + -2048) + Integer.MIN_VALUE > -2147420161) { break L39; }
       final int t40 = b[((int) ((l3 = ((((l10 = (((l4 >>> 12) | ((l4 << 2) & 16128)) | ((l4 << 16) & 4128768)) | 8421600) & 0xffffffffL) * 953497L) >>> 22L) & 1016L) + 66857L)) - 58912] & 0xff;
       final int t41 = l10 = (Words.get32(b, State.far((int) l3, 66852)) == l10) ? 1 : 0;
       l12 = t41 != 0 ? t40 : 0;
       final int t42 = b[((int) (l3 + 66856L)) - 58912] & 0xff;
       final int t43 = l10;
       l11 = t43 != 0 ? t42 : 2;
       break L28;
      }
      final int t44 = l10 = l4 + -48;
      final int t45 = l10 = (l10 + Integer.MIN_VALUE < -2147483638) ? 1 : 0;
      l12 = t45 != 0 ? t44 : 0;
      l11 = l10 != 0 ? 0 : 2;
     }
     Core2.f63(m, l7 + 16L, l4);
     L46: {
      if ((l4 + -58) + Integer.MIN_VALUE <= 2147483637) { break L46; }
      l10 = 0;
      exit = 4; break PART;
     }
     L47: {
      if (((b[((int) l7) - 58896] & 0xff) & 255) == 1) { break L47; }
      l10 = 0;
      exit = 4; break PART;
     }
     l10 = 0;
     L48: {
      L49: {
       switch ((int) ((l11 & 0xffffffffL) & 255L)) {
       case 1: break L49;
       case 2: exit = 4; break PART;
       default: break L48;
       }
      }
      if ((l1 & 255) + Integer.MIN_VALUE >= (l12 & 255) + Integer.MIN_VALUE) { break L48; }
      l10 = 0;
      exit = 4; break PART;
     }
     L50: {
      if ((l0 & 1) != 0) { break L50; }
      L51: {
       L52: {
        if (l4 > 29589) { break L52; }
        L53: {
         if (l4 > 22776) { break L53; }
         L54: {
          if (l4 != 20191) { break L54; }
          l10 = 0;
          exit = 4; break PART;
         }
         L55: {
          if (l4 != 20237) { break L55; }
          l10 = 0;
          exit = 4; break PART;
         }
         if (l4 != 20336) { break L51; }
         l10 = 0;
         exit = 4; break PART;
        }
        L56: {
         if (l4 > 25419) { break L56; }
         L57: {
          if (l4 != 22777) { break L57; }
          l10 = 0;
          exit = 4; break PART;
         }
         if (l4 != 25342) { break L51; }
         l10 = 0;
         exit = 4; break PART;
        }
        L58: {
         if (l4 != 25420) { break L58; }
         l10 = 0;
         exit = 4; break PART;
        }
        if (l4 != 26578) { break L51; }
        l10 = 0;
        exit = 4; break PART;
       }
       L59: {
        if (l4 > 36143) { break L59; }
        l10 = 0;
        L60: {
         switch (l4 + -36014) {
         case 0: case 5: exit = 4; break PART;
         case 1: case 2: case 3: case 4: break L51;
         default: break L60;
         }
        }
        L61: {
         if (l4 != 29590) { break L61; }
         l10 = 0;
         exit = 4; break PART;
        }
        if (l4 != 32902) { break L51; }
        l10 = 0;
        exit = 4; break PART;
       }
       L62: {
        if (l4 != 36144) { break L62; }
        l10 = 0;
        exit = 4; break PART;
       }
       L63: {
        if (l4 != 38470) { break L63; }
        l10 = 0;
        exit = 4; break PART;
       }
       if (l4 != 38520) { break L51; }
       l10 = 0;
       exit = 4; break PART;
      }
      if ((l4 + -21441) + Integer.MIN_VALUE >= -2147483644) { break L50; }
      l10 = 0;
      exit = 4; break PART;
     }
     L64: {
      if ((l1 = (l6 == 0L) ? 1 : 0) != 0) { break L64; }
      l10 = (l0 = (int) b[((int) l5) - 58912]) & 255;
      L65: {
       if (l0 > -1) { break L65; }
       l11 = (b[((int) l5) - 58911] & 0xff) & 63;
       L66: {
        if (l0 + Integer.MIN_VALUE > 2147483615) { break L66; }
        l10 = ((l10 << 6) & 1984) | l11;
        break L65;
       }
       l12 = (b[((int) l5) - 58910] & 0xff) & 63;
       L67: {
        if (l0 + Integer.MIN_VALUE > 2147483631) { break L67; }
        l10 = ((l11 << 6) | ((l10 << 12) & 61440)) | l12;
        break L65;
       }
       l10 = ((l12 << 6) | ((l11 << 12) | ((l10 << 18) & 1835008))) | ((b[((int) l5) - 58909] & 0xff) & 63);
      }
      L68: {
       if (l10 > 21312) { break L68; }
       L69: {
        if (l10 != 20998) { break L69; }
        l10 = 0;
        exit = 4; break PART;
       }
       if (l10 != 21051) { break L64; }
       l10 = 0;
       exit = 4; break PART;
      }
      L70: {
       if (l10 != 21313) { break L70; }
       l10 = 0;
       exit = 4; break PART;
      }
      L71: {
       if (l10 != 28857) { break L71; }
       l10 = 0;
       exit = 4; break PART;
      }
      if (l10 != 40670) { break L64; }
      l10 = 0;
      exit = 4; break PART;
     }
     l10 = 1;
     L72: {
      L73: {
       if (l4 == 38646) { break L73; }
       if (l4 == 19968) { break L72; }
       if (l4 != 12295) { exit = 4; break PART; }
      }
      if (l1 != 0) { exit = 4; break PART; }
      l4 = (l10 = (int) b[((int) l5) - 58912]) & 255;
      l3 = 1L;
      L74: {
       if (l10 > -1) { break L74; }
       l0 = (b[((int) l5) - 58911] & 0xff) & 63;
       L75: {
        if (l10 + Integer.MIN_VALUE > 2147483615) { break L75; }
        l4 = ((l4 << 6) & 1984) | l0;
        l3 = 2L;
        break L74;
       }
       l1 = (b[((int) l5) - 58910] & 0xff) & 63;
       L76: {
        if (l10 + Integer.MIN_VALUE > 2147483631) { break L76; }
        l4 = ((l0 << 6) | ((l4 << 12) & 61440)) | l1;
        l3 = 3L;
        break L74;
       }
       l4 = ((l1 << 6) | ((l0 << 12) | ((l4 << 18) & 1835008))) | ((b[((int) l5) - 58909] & 0xff) & 63);
       l3 = 4L;
      }
      Core2.f63(m, l7 + 8L, l4);
      l10 = 1;
      if (l6 == l3) { exit = 4; break PART; }
      if (((l4 + -65306) + Integer.MIN_VALUE < 2147483638) & ((b[((int) l7) - 58904] & 0xff) != 1)) { exit = 4; break PART; }
      l4 = (l10 = (int) b[((int) (l5 = l5 + l3)) - 58912]) & 255;
      L77: {
       if (l10 > -1) { break L77; }
       l0 = (b[((int) l5) - 58911] & 0xff) & 63;
       L78: {
        if (l10 + Integer.MIN_VALUE > 2147483615) { break L78; }
        l4 = ((l4 << 6) & 1984) | l0;
        break L77;
       }
       l1 = (b[((int) l5) - 58910] & 0xff) & 63;
       L79: {
        if (l10 + Integer.MIN_VALUE > 2147483631) { break L79; }
        l4 = ((l0 << 6) | ((l4 << 12) & 61440)) | l1;
        break L77;
       }
       l4 = ((l1 << 6) | ((l0 << 12) | ((l4 << 18) & 1835008))) | ((b[((int) l5) - 58909] & 0xff) & 63);
      }
      L80: {
       L81: {
        if (l4 > 21312) { break L81; }
        L82: {
         if (l4 != 20998) { break L82; }
         l10 = 0;
         exit = 4; break PART;
        }
        l10 = 0;
        if (l4 != 21051) { break L80; }
        exit = 4; break PART;
       }
       L83: {
        if (l4 != 21313) { break L83; }
        l10 = 0;
        exit = 4; break PART;
       }
       L84: {
        if (l4 != 28857) { break L84; }
        l10 = 0;
        exit = 4; break PART;
       }
       l10 = 0;
       if (l4 == 40670) { exit = 4; break PART; }
      }
      l10 = 1;
      exit = 4; break PART;
     }
     if (l1 != 0) { exit = 4; break PART; }
     l4 = (l10 = (int) b[((int) l5) - 58912]) & 255;
     L85: {
      if (l10 > -1) { break L85; }
      l0 = (b[((int) l5) - 58911] & 0xff) & 63;
      L86: {
       if (l10 + Integer.MIN_VALUE > 2147483615) { break L86; }
       l4 = ((l4 << 6) & 1984) | l0;
       break L85;
      }
      l1 = (b[((int) l5) - 58910] & 0xff) & 63;
      L87: {
       if (l10 + Integer.MIN_VALUE > 2147483631) { break L87; }
       l4 = ((l0 << 6) | ((l4 << 12) & 61440)) | l1;
       break L85;
      }
      l4 = ((l1 << 6) | ((l0 << 12) | ((l4 << 18) & 1835008))) | ((b[((int) l5) - 58909] & 0xff) & 63);
     }
     L88: {
      L89: {
       if (l4 > 27170) { break L89; }
       L90: {
        if (l4 > 20998) { break L90; }
        L91: {
         if (l4 != 19979) { break L91; }
         l10 = 0;
         exit = 4; break PART;
        }
        l10 = 0;
        if (l4 != 20123) { break L88; }
        exit = 4; break PART;
       }
       L92: {
        if (l4 != 20999) { break L92; }
        l10 = 0;
        exit = 4; break PART;
       }
       L93: {
        if (l4 != 23450) { break L93; }
        l10 = 0;
        exit = 4; break PART;
       }
       l10 = 0;
       if (l4 != 26679) { break L88; }
       exit = 4; break PART;
      }
      L94: {
       if (l4 > 32217) { break L94; }
       L95: {
        if (l4 != 27171) { break L95; }
        l10 = 0;
        exit = 4; break PART;
       }
       L96: {
        if (l4 != 28404) { break L96; }
        l10 = 0;
        exit = 4; break PART;
       }
       l10 = 0;
       if (l4 != 30452) { break L88; }
       exit = 4; break PART;
      }
      L97: {
       if (l4 != 32218) { break L97; }
       l10 = 0;
       exit = 4; break PART;
      }
      L98: {
       if (l4 != 32447) { break L98; }
       l10 = 0;
       exit = 4; break PART;
      }
      l10 = 0;
      if (l4 == 36215) { exit = 4; break PART; }
     }
     l10 = 1;
     exit = 4; break PART;
    }
    l10 = 0;
    if (l3 == 0L) { exit = 4; break PART; }
    l10 = 0;
    L99: {
     if ((l4 = (int) b[((int) ((l8 = l2 + l3) + -1L)) - 58912]) >= 0) { break L99; }
     l9 = -2L;
     L100: {
      if ((b[((int) (l8 + -2L)) - 58912] & 0xff) + Integer.MIN_VALUE > -2147483457) { break L100; }
      l9 = ((b[((int) (l8 + -3L)) - 58912] & 0xff) + Integer.MIN_VALUE > -2147483457) ? -3L : -4L;
     }
     l4 = (l0 = (int) b[((int) (l3 = (l2 + l9) + l3)) - 58912]) & 255;
     if (l0 > -1) { break L99; }
     l1 = (b[((int) l3) - 58911] & 0xff) & 63;
     L101: {
      if (l0 + Integer.MIN_VALUE > 2147483615) { break L101; }
      l4 = ((l4 << 6) & 1984) | l1;
      break L99;
     }
     l11 = (b[((int) l3) - 58910] & 0xff) & 63;
     L102: {
      if (l0 + Integer.MIN_VALUE > 2147483631) { break L102; }
      l4 = ((l1 << 6) | ((l4 << 12) & 61440)) | l11;
      break L99;
     }
     l4 = ((l11 << 6) | ((l1 << 12) | ((l4 << 18) & 1835008))) | ((b[((int) l3) - 58909] & 0xff) & 63);
    }
    if (l6 == 0L) { exit = 4; break PART; }
    if (((l4 + -58) + Integer.MIN_VALUE < 2147483638) & ((l4 + -65306) + Integer.MIN_VALUE < 2147483638)) { exit = 4; break PART; }
    l4 = (l10 = (int) b[((int) l5) - 58912]) & 255;
    L103: {
     if (l10 > -1) { break L103; }
     l0 = (b[((int) l5) - 58911] & 0xff) & 63;
     L104: {
      if (l10 + Integer.MIN_VALUE > 2147483615) { break L104; }
      l4 = ((l4 << 6) & 1984) | l0;
      break L103;
     }
     l1 = (b[((int) l5) - 58910] & 0xff) & 63;
     L105: {
      if (l10 + Integer.MIN_VALUE > 2147483631) { break L105; }
      l4 = ((l0 << 6) | ((l4 << 12) & 61440)) | l1;
      break L103;
     }
     l4 = ((l1 << 6) | ((l0 << 12) | ((l4 << 18) & 1835008))) | ((b[((int) l5) - 58909] & 0xff) & 63);
    }
    l10 = (((l4 + -48) + Integer.MIN_VALUE < -2147483638) | ((l4 + -65296) + Integer.MIN_VALUE < -2147483638)) ? 1 : 0;
    exit = 4; break PART;
   }
   l10 = f151(m, l2, l3, l5, l6);
   exit = 4; break PART;
  }
 }
 m.kept[0] = l0;
 m.kept[1] = l1;
 m.kept[2] = l3;
 m.kept[3] = l4;
 m.kept[4] = l5;
 m.kept[5] = l6;
 m.kept[6] = l8;
 m.kept[7] = l9;
 m.kept[8] = l10;
 m.kept[9] = l11;
 m.kept[10] = l12;
 m.kept[11] = l13;
 return exit;
}

static int f148_2(State m, int l0, int l1, long l2, long l3, int l4, long l5, long l6, int l10, int l11, int l12, int l13) {
 final byte[] b = m.bytes;
 int exit = 0;
 PART: {
  L120: {
   L121: {
    L122: {
     L123: {
      L124: {
       if (l6 + Long.MIN_VALUE < -9223372036854775805L) { break L124; }
       if (((l4 = b[((int) l5) - 58912] & 0xff) & 240) != 224) { break L123; }
       final int t125 = b[((int) ((l3 = ((((l10 = (((l12 = b[((int) l5) - 58911] & 0xff) << 8) | ((l13 = b[((int) l5) - 58910] & 0xff) << 16)) | l4) & 0xffffffffL) * 953497L) >>> 22L) & 1016L) + 66857L)) - 58912] & 0xff;
       final int t126 = l10 = (Words.get32(b, State.far((int) l3, 66852)) == l10) ? 1 : 0;
       l11 = t126 != 0 ? t125 : 0;
       final int t127 = b[((int) (l3 + 66856L)) - 58912] & 0xff;
       final int t128 = l10;
       l10 = t128 != 0 ? t127 : 2;
       l4 = (((l4 << 12) | l13) + (l12 << 6)) + -925824;
       l6 = l6 + -3L;
       l5 = l5 + 3L;
       break L122;
      }
      if (l6 == 0L) { exit = 1; break PART; }
      l4 = b[((int) l5) - 58912] & 0xff;
     }
     l3 = 1L;
     L129: {
      if (((int) (byte) l4) > -1) { break L129; }
      l10 = (b[((int) l5) - 58911] & 0xff) & 63;
      L130: {
       if (l4 + Integer.MIN_VALUE > -2147483425) { break L130; }
       l4 = ((l4 << 6) & 1984) | l10;
       l3 = 2L;
       break L129;
      }
      l11 = (b[((int) l5) - 58910] & 0xff) & 63;
      L131: {
       if (l4 + Integer.MIN_VALUE > -2147483409) { break L131; }
       l4 = ((l10 << 6) | ((l4 << 12) & 61440)) | l11;
       l3 = 3L;
       break L129;
      }
      l4 = ((l11 << 6) | ((l10 << 12) | ((l4 << 18) & 1835008))) | ((b[((int) l5) - 58909] & 0xff) & 63);
      l3 = 4L;
     }
     if ((l4 + -2048) + Integer.MIN_VALUE > -2147420161) { break L121; }
     final int t132 = b[((int) ((l2 = ((((l10 = (((l4 >>> 12) | ((l4 << 2) & 16128)) | ((l4 << 16) & 4128768)) | 8421600) & 0xffffffffL) * 953497L) >>> 22L) & 1016L) + 66857L)) - 58912] & 0xff;
     final int t133 = l10 = (Words.get32(b, State.far((int) l2, 66852)) == l10) ? 1 : 0;
     l11 = t133 != 0 ? t132 : 0;
     final int t134 = b[((int) (l2 + 66856L)) - 58912] & 0xff;
     final int t135 = l10;
     l10 = t135 != 0 ? t134 : 2;
     l5 = l5 + l3;
     l6 = l6 - l3;
    }
    if ((l10 & 255) != 1) { break L121; }
    if ((l11 & 255) + Integer.MIN_VALUE < -2147483646) { break L121; }
    if ((l1 & 255) + Integer.MIN_VALUE < (l11 & 255) + Integer.MIN_VALUE) { break L121; }
    l10 = 1;
    L136: {
     if ((l0 & 1) != 0) { break L136; }
     L137: {
      L138: {
       if (l4 > 29589) { break L138; }
       L139: {
        if (l4 > 22776) { break L139; }
        if (l4 == 20191) { break L120; }
        if (l4 == 20237) { break L120; }
        if (l4 != 20336) { break L137; }
        break L120;
       }
       L140: {
        if (l4 > 25419) { break L140; }
        if (l4 == 22777) { break L120; }
        if (l4 != 25342) { break L137; }
        break L120;
       }
       if (l4 == 25420) { break L120; }
       if (l4 != 26578) { break L137; }
       break L120;
      }
      L141: {
       if (l4 > 36143) { break L141; }
       L142: {
        switch (l4 + -36014) {
        case 0: case 5: break L120;
        case 1: case 2: case 3: case 4: break L137;
        default: break L142;
        }
       }
       if (l4 == 29590) { break L120; }
       if (l4 != 32902) { break L137; }
       break L120;
      }
      if (l4 == 36144) { break L120; }
      if (l4 == 38470) { break L120; }
      if (l4 == 38520) { break L120; }
     }
     if ((l4 + -21441) + Integer.MIN_VALUE < -2147483644) { break L121; }
    }
    if ((l11 & 255) != 6) { exit = 1; break PART; }
    if (Core3.f108(m, l5, l6) == 0) { exit = 1; break PART; }
   }
   l10 = 1;
   if (l4 == 37) { exit = 1; break PART; }
   if (l4 == 8240) { exit = 1; break PART; }
   if (l4 == 65285) { exit = 1; break PART; }
  }
 }
 m.kept[0] = l2;
 m.kept[1] = l3;
 m.kept[2] = l4;
 m.kept[3] = l5;
 m.kept[4] = l6;
 m.kept[5] = l10;
 m.kept[6] = l11;
 m.kept[7] = l12;
 m.kept[8] = l13;
 return exit;
}

static int f148_3(State m, int l0, int l1, long l2, long l3, int l4, long l5, long l6, long l8, int l10, int l11, int l12, int l13) {
 final byte[] b = m.bytes;
 int exit = 0;
 PART: {
  L167: while (true) {
   L168: {
    L169: {
     L170: {
      if (l6 + Long.MIN_VALUE < -9223372036854775805L) { break L170; }
      if (((l4 = b[((int) l5) - 58912] & 0xff) & 240) != 224) { break L169; }
      final int t171 = b[((int) ((l3 = ((((l10 = (((l12 = b[((int) l5) - 58911] & 0xff) << 8) | ((l13 = b[((int) l5) - 58910] & 0xff) << 16)) | l4) & 0xffffffffL) * 953497L) >>> 22L) & 1016L) + 66857L)) - 58912] & 0xff;
      final int t172 = l11 = (Words.get32(b, State.far((int) l3, 66852)) == l10) ? 1 : 0;
      l10 = t172 != 0 ? t171 : 0;
      final int t173 = b[((int) (l3 + 66856L)) - 58912] & 0xff;
      final int t174 = l11;
      l11 = t174 != 0 ? t173 : 2;
      l4 = (((l4 << 12) | l13) + (l12 << 6)) + -925824;
      l6 = l6 + -3L;
      l5 = l5 + 3L;
      break L168;
     }
     L175: {
      if (!(l6 == 0L)) { break L175; }
      l10 = 0;
      exit = 1; break PART;
     }
     l4 = b[((int) l5) - 58912] & 0xff;
    }
    l3 = 1L;
    L176: {
     if (((int) (byte) l4) > -1) { break L176; }
     l10 = (b[((int) l5) - 58911] & 0xff) & 63;
     L177: {
      if (l4 + Integer.MIN_VALUE > -2147483425) { break L177; }
      l4 = ((l4 << 6) & 1984) | l10;
      l3 = 2L;
      break L176;
     }
     l11 = (b[((int) l5) - 58910] & 0xff) & 63;
     L178: {
      if (l4 + Integer.MIN_VALUE > -2147483409) { break L178; }
      l4 = ((l10 << 6) | ((l4 << 12) & 61440)) | l11;
      l3 = 3L;
      break L176;
     }
     l4 = ((l11 << 6) | ((l10 << 12) | ((l4 << 18) & 1835008))) | ((b[((int) l5) - 58909] & 0xff) & 63);
     l3 = 4L;
    }
    l6 = l6 - l3;
    l5 = l5 + l3;
    L179: {
     if ((l4 + -2048) + Integer.MIN_VALUE > -2147420161) { break L179; }
     final int t180 = b[((int) ((l3 = ((((l10 = (((l4 >>> 12) | ((l4 << 2) & 16128)) | ((l4 << 16) & 4128768)) | 8421600) & 0xffffffffL) * 953497L) >>> 22L) & 1016L) + 66857L)) - 58912] & 0xff;
     final int t181 = l11 = (Words.get32(b, State.far((int) l3, 66852)) == l10) ? 1 : 0;
     l10 = t181 != 0 ? t180 : 0;
     final int t182 = b[((int) (l3 + 66856L)) - 58912] & 0xff;
     final int t183 = l11;
     l11 = t183 != 0 ? t182 : 2;
     break L168;
    }
    final int t184 = l10 = l4 + -48;
    final int t185 = l11 = (l10 + Integer.MIN_VALUE < -2147483638) ? 1 : 0;
    l10 = t185 != 0 ? t184 : 0;
    l11 = l11 != 0 ? 0 : 2;
   }
   L186: {
    if (Core4.f146(m, l0, l1, l4, l11, l10, l5, l6) != 0) { break L186; }
    l10 = 0;
    exit = 1; break PART;
   }
   if (l6 == 0L) { continue L167; }
   if ((l4 = (int) b[((int) l5) - 58912]) > -1) { continue L167; }
   if (l4 + Integer.MIN_VALUE < 2147483616) { continue L167; }
   l10 = l4 & 255;
   l11 = (b[((int) l5) - 58911] & 0xff) & 63;
   l12 = (b[((int) l5) - 58910] & 0xff) & 63;
   L187: {
    L188: {
     if (l4 + Integer.MIN_VALUE > 2147483631) { break L188; }
     l4 = ((l11 << 6) | ((l10 << 12) & 61440)) | l12;
     l3 = 3L;
     break L187;
    }
    l4 = ((l12 << 6) | ((l11 << 12) | ((l10 << 18) & 1835008))) | ((b[((int) l5) - 58909] & 0xff) & 63);
    l3 = 4L;
   }
   if (l6 == l3) { continue L167; }
   if (l4 != 20998) { continue L167; }
   if ((l4 = (int) b[((int) (l2 = l5 + l3)) - 58912]) > -1) { continue L167; }
   if (l4 + Integer.MIN_VALUE < 2147483616) { continue L167; }
   l10 = l4 & 255;
   l11 = (b[((int) l2) - 58911] & 0xff) & 63;
   l12 = (b[((int) l2) - 58910] & 0xff) & 63;
   L189: {
    L190: {
     if (l4 + Integer.MIN_VALUE > 2147483631) { break L190; }
     l4 = ((l11 << 6) | ((l10 << 12) & 61440)) | l12;
     l8 = 3L;
     break L189;
    }
    l4 = ((l12 << 6) | ((l11 << 12) | ((l10 << 18) & 1835008))) | ((b[((int) l2) - 58909] & 0xff) & 63);
    l8 = 4L;
   }
   if (l4 != 20043) { continue L167; }
   l10 = 1;
   if (f152(m, l0, l1, l2 + l8, l6 - (l3 + l8)) == 0) { continue L167; }
   exit = 1; break PART;
  }
 }
 m.kept[0] = l2;
 m.kept[1] = l3;
 m.kept[2] = l4;
 m.kept[3] = l5;
 m.kept[4] = l6;
 m.kept[5] = l8;
 m.kept[6] = l10;
 m.kept[7] = l11;
 m.kept[8] = l12;
 m.kept[9] = l13;
 return exit;
}

static int f148_4(State m, long l3, int l4, long l5, long l6, int l10, int l11, int l12, int l13) {
 final byte[] b = m.bytes;
 int exit = 0;
 PART: {
  L201: {
   L202: {
    L203: {
     if (l6 + Long.MIN_VALUE < -9223372036854775805L) { break L203; }
     if (((l4 = b[((int) l5) - 58912] & 0xff) & 240) != 224) { break L202; }
     final int t204 = b[((int) ((l3 = ((((l11 = (((l10 = b[((int) l5) - 58911] & 0xff) << 8) | ((l13 = b[((int) l5) - 58910] & 0xff) << 16)) | l4) & 0xffffffffL) * 953497L) >>> 22L) & 1016L) + 66857L)) - 58912] & 0xff;
     final int t205 = l11 = (Words.get32(b, State.far((int) l3, 66852)) == l11) ? 1 : 0;
     l12 = t205 != 0 ? t204 : 0;
     final int t206 = b[((int) (l3 + 66856L)) - 58912] & 0xff;
     final int t207 = l11;
     l11 = t207 != 0 ? t206 : 2;
     l4 = (((l4 << 12) | l13) + (l10 << 6)) + -925824;
     l6 = l6 + -3L;
     l5 = l5 + 3L;
     break L201;
    }
    L208: {
     if (!(l6 == 0L)) { break L208; }
     l10 = 0;
     exit = 1; break PART;
    }
    l4 = b[((int) l5) - 58912] & 0xff;
   }
   l3 = 1L;
   L209: {
    if (((int) (byte) l4) > -1) { break L209; }
    l10 = (b[((int) l5) - 58911] & 0xff) & 63;
    L210: {
     if (l4 + Integer.MIN_VALUE > -2147483425) { break L210; }
     l4 = ((l4 << 6) & 1984) | l10;
     l3 = 2L;
     break L209;
    }
    l11 = (b[((int) l5) - 58910] & 0xff) & 63;
    L211: {
     if (l4 + Integer.MIN_VALUE > -2147483409) { break L211; }
     l4 = ((l10 << 6) | ((l4 << 12) & 61440)) | l11;
     l3 = 3L;
     break L209;
    }
    l4 = ((l11 << 6) | ((l10 << 12) | ((l4 << 18) & 1835008))) | ((b[((int) l5) - 58909] & 0xff) & 63);
    l3 = 4L;
   }
   l6 = l6 - l3;
   l5 = l5 + l3;
   L212: {
    if ((l4 + -2048) + Integer.MIN_VALUE > -2147420161) { break L212; }
    final int t213 = b[((int) ((l3 = ((((l10 = (((l4 >>> 12) | ((l4 << 2) & 16128)) | ((l4 << 16) & 4128768)) | 8421600) & 0xffffffffL) * 953497L) >>> 22L) & 1016L) + 66857L)) - 58912] & 0xff;
    final int t214 = l10 = (Words.get32(b, State.far((int) l3, 66852)) == l10) ? 1 : 0;
    l12 = t214 != 0 ? t213 : 0;
    final int t215 = b[((int) (l3 + 66856L)) - 58912] & 0xff;
    final int t216 = l10;
    l11 = t216 != 0 ? t215 : 2;
    break L201;
   }
   final int t217 = l10 = l4 + -48;
   final int t218 = l10 = (l10 + Integer.MIN_VALUE < -2147483638) ? 1 : 0;
   l12 = t218 != 0 ? t217 : 0;
   l11 = l10 != 0 ? 0 : 2;
  }
 }
 m.kept[0] = l3;
 m.kept[1] = l4;
 m.kept[2] = l5;
 m.kept[3] = l6;
 m.kept[4] = l10;
 m.kept[5] = l11;
 m.kept[6] = l12;
 m.kept[7] = l13;
 return exit;
}

static int f148_5(State m, int l0, int l1, int l4, long l7, int l10, int l11, int l12) {
 final byte[] b = m.bytes;
 int exit = 0;
 PART: {
  L220: {
   if ((l4 + -48) + Integer.MIN_VALUE < -2147483638) { break L220; }
   if ((l4 + -65296) + Integer.MIN_VALUE < -2147483638) { break L220; }
   l10 = 0;
   L221: {
    L222: {
     switch ((int) ((l11 & 0xffffffffL) & 255L)) {
     case 1: break L222;
     case 2: exit = 1; break PART;
     default: break L221;
     }
    }
    if ((l1 & 255) + Integer.MIN_VALUE >= (l12 & 255) + Integer.MIN_VALUE) { break L221; }
    l10 = 0;
    exit = 1; break PART;
   }
   L223: {
    if ((l0 & 1) != 0) { break L223; }
    L224: {
     L225: {
      if (l4 > 29589) { break L225; }
      L226: {
       if (l4 > 22776) { break L226; }
       L227: {
        if (l4 != 20191) { break L227; }
        l10 = 0;
        exit = 1; break PART;
       }
       L228: {
        if (l4 != 20237) { break L228; }
        l10 = 0;
        exit = 1; break PART;
       }
       if (l4 != 20336) { break L224; }
       l10 = 0;
       exit = 1; break PART;
      }
      L229: {
       if (l4 > 25419) { break L229; }
       L230: {
        if (l4 != 22777) { break L230; }
        l10 = 0;
        exit = 1; break PART;
       }
       if (l4 != 25342) { break L224; }
       l10 = 0;
       exit = 1; break PART;
      }
      L231: {
       if (l4 != 25420) { break L231; }
       l10 = 0;
       exit = 1; break PART;
      }
      if (l4 != 26578) { break L224; }
      l10 = 0;
      exit = 1; break PART;
     }
     L232: {
      if (l4 > 36143) { break L232; }
      l10 = 0;
      L233: {
       switch (l4 + -36014) {
       case 0: case 5: exit = 1; break PART;
       case 1: case 2: case 3: case 4: break L224;
       default: break L233;
       }
      }
      L234: {
       if (l4 != 29590) { break L234; }
       l10 = 0;
       exit = 1; break PART;
      }
      if (l4 != 32902) { break L224; }
      l10 = 0;
      exit = 1; break PART;
     }
     L235: {
      if (l4 != 36144) { break L235; }
      l10 = 0;
      exit = 1; break PART;
     }
     L236: {
      if (l4 != 38470) { break L236; }
      l10 = 0;
      exit = 1; break PART;
     }
     if (l4 != 38520) { break L224; }
     l10 = 0;
     exit = 1; break PART;
    }
    if ((l4 + -21441) + Integer.MIN_VALUE >= -2147483644) { break L223; }
    l10 = 0;
    exit = 1; break PART;
   }
   Core2.f63(m, l7 + 24L, l4);
   if (l4 == 21313) { break L220; }
   if (((b[((int) l7) - 58888] & 0xff) & 255) == 1) { break L220; }
   l10 = 0;
   exit = 1; break PART;
  }
 }
 m.kept[0] = l10;
 return exit;
}

static int f148_6(State m, int l4, long l5, long l6, long l8, int l10, int l11, int l12) {
 final byte[] b = m.bytes;
 int exit = 0;
 PART: {
  L259: {
   if ((l4 + -48) + Integer.MIN_VALUE < -2147483638) { break L259; }
   if ((l4 + -65296) + Integer.MIN_VALUE < -2147483638) { break L259; }
   L260: {
    if (l4 == 65509) { break L260; }
    if (l4 == 165) { break L260; }
    l10 = 0;
    exit = 1; break PART;
   }
   L261: {
    if (l6 != l8) { break L261; }
    l10 = 0;
    exit = 1; break PART;
   }
   l4 = (l10 = (int) b[((int) (l5 = l5 + l8)) - 58912]) & 255;
   L262: {
    if (l10 > -1) { break L262; }
    l11 = (b[((int) l5) - 58911] & 0xff) & 63;
    L263: {
     if (l10 + Integer.MIN_VALUE > 2147483615) { break L263; }
     l4 = ((l4 << 6) & 1984) | l11;
     break L262;
    }
    l12 = (b[((int) l5) - 58910] & 0xff) & 63;
    L264: {
     if (l10 + Integer.MIN_VALUE > 2147483631) { break L264; }
     l4 = ((l11 << 6) | ((l4 << 12) & 61440)) | l12;
     break L262;
    }
    l4 = ((l12 << 6) | ((l11 << 12) | ((l4 << 18) & 1835008))) | ((b[((int) l5) - 58909] & 0xff) & 63);
   }
   if ((l4 + -48) + Integer.MIN_VALUE < -2147483638) { break L259; }
   l10 = 0;
   if ((l4 + -65296) + Integer.MIN_VALUE > -2147483639) { exit = 1; break PART; }
  }
 }
 m.kept[0] = l4;
 m.kept[1] = l5;
 m.kept[2] = l10;
 m.kept[3] = l11;
 m.kept[4] = l12;
 return exit;
}

static int f148(State m, int l0, int l1, long l2, long l3, int l4, long l5, long l6) {
 final byte[] b = m.bytes;
 long l7 = 0;
 long l8 = 0;
 long l9 = 0;
 int l10 = 0;
 int l11 = 0;
 int l12 = 0;
 int l13 = 0;
 m.g0 = l7 = m.g0 - 32L;
 L1: {
  if ((l7 = l7) < 16L) { break L1; }
  L2: {
   L3: {
    L4: {
     L5: {
      L6: {
       L7: {
        L8: {
         L9: {
          L10: {
           L11: {
            final int x106 = f148_1(m, l0, l1, l2, l3, l4, l5, l6, l7, l8, l9, l10, l11, l12, l13);
            l0 = (int) m.kept[0];
            l1 = (int) m.kept[1];
            l3 = m.kept[2];
            l4 = (int) m.kept[3];
            l5 = m.kept[4];
            l6 = m.kept[5];
            l8 = m.kept[6];
            l9 = m.kept[7];
            l10 = (int) m.kept[8];
            l11 = (int) m.kept[9];
            l12 = (int) m.kept[10];
            l13 = (int) m.kept[11];
            switch (x106) {
            case 1: break L11;
            case 2: break L8;
            case 3: break L4;
            case 4: break L2;
            case 5: break L3;
            case 6: break L6;
            case 7: break L9;
            case 8: break L10;
            case 9: break L7;
            case 10: break L5;
            }
            l4 = f151(m, l2, l3, l5, l6);
            L107: {
             if (!(l3 == 0L)) { break L107; }
             l10 = 0;
             break L2;
            }
            l10 = 0;
            if (l4 == 0) { break L2; }
            l10 = 0;
            L108: {
             if ((l4 = (int) b[((int) ((l8 = l2 + l3) + -1L)) - 58912]) >= 0) { break L108; }
             l9 = -2L;
             L109: {
              if ((b[((int) (l8 + -2L)) - 58912] & 0xff) + Integer.MIN_VALUE > -2147483457) { break L109; }
              l9 = ((b[((int) (l8 + -3L)) - 58912] & 0xff) + Integer.MIN_VALUE > -2147483457) ? -3L : -4L;
             }
             l4 = (l0 = (int) b[((int) (l3 = (l2 + l9) + l3)) - 58912]) & 255;
             if (l0 > -1) { break L108; }
             l1 = (b[((int) l3) - 58911] & 0xff) & 63;
             L110: {
              if (l0 + Integer.MIN_VALUE > 2147483615) { break L110; }
              l4 = ((l4 << 6) & 1984) | l1;
              break L108;
             }
             l11 = (b[((int) l3) - 58910] & 0xff) & 63;
             L111: {
              if (l0 + Integer.MIN_VALUE > 2147483631) { break L111; }
              l4 = ((l1 << 6) | ((l4 << 12) & 61440)) | l11;
              break L108;
             }
             l4 = ((l11 << 6) | ((l1 << 12) | ((l4 << 18) & 1835008))) | ((b[((int) l3) - 58909] & 0xff) & 63);
            }
            if (l6 == 0L) { break L2; }
            if ((l4 + -65306) + Integer.MIN_VALUE < 2147483638) { break L2; }
            l4 = (l10 = (int) b[((int) l5) - 58912]) & 255;
            L112: {
             if (l10 > -1) { break L112; }
             l0 = (b[((int) l5) - 58911] & 0xff) & 63;
             L113: {
              if (l10 + Integer.MIN_VALUE > 2147483615) { break L113; }
              l4 = ((l4 << 6) & 1984) | l0;
              break L112;
             }
             l1 = (b[((int) l5) - 58910] & 0xff) & 63;
             L114: {
              if (l10 + Integer.MIN_VALUE > 2147483631) { break L114; }
              l4 = ((l0 << 6) | ((l4 << 12) & 61440)) | l1;
              break L112;
             }
             l4 = ((l1 << 6) | ((l0 << 12) | ((l4 << 18) & 1835008))) | ((b[((int) l5) - 58909] & 0xff) & 63);
            }
            l10 = ((l4 + -65296) + Integer.MIN_VALUE < -2147483638) ? 1 : 0;
            break L2;
           }
           l10 = 0;
           if (l3 == 0L) { break L2; }
           l10 = 0;
           L115: {
            if ((l4 = (int) b[((int) ((l8 = l2 + l3) + -1L)) - 58912]) >= 0) { break L115; }
            l9 = -2L;
            L116: {
             if ((b[((int) (l8 + -2L)) - 58912] & 0xff) + Integer.MIN_VALUE > -2147483457) { break L116; }
             l9 = ((b[((int) (l8 + -3L)) - 58912] & 0xff) + Integer.MIN_VALUE > -2147483457) ? -3L : -4L;
            }
            l4 = (l11 = (int) b[((int) (l3 = (l2 + l9) + l3)) - 58912]) & 255;
            if (l11 > -1) { break L115; }
            l12 = (b[((int) l3) - 58911] & 0xff) & 63;
            L117: {
             if (l11 + Integer.MIN_VALUE > 2147483615) { break L117; }
             l4 = ((l4 << 6) & 1984) | l12;
             break L115;
            }
            l13 = (b[((int) l3) - 58910] & 0xff) & 63;
            L118: {
             if (l11 + Integer.MIN_VALUE > 2147483631) { break L118; }
             l4 = ((l12 << 6) | ((l4 << 12) & 61440)) | l13;
             break L115;
            }
            l4 = ((l13 << 6) | ((l12 << 12) | ((l4 << 18) & 1835008))) | ((b[((int) l3) - 58909] & 0xff) & 63);
           }
           L119: {
            if ((l4 + -48) + Integer.MIN_VALUE < -2147483638) { break L119; }
            if ((l4 + -65296) + Integer.MIN_VALUE > -2147483639) { break L2; }
           }
           final int x143 = f148_2(m, l0, l1, l2, l3, l4, l5, l6, l10, l11, l12, l13);
           l2 = m.kept[0];
           l3 = m.kept[1];
           l4 = (int) m.kept[2];
           l5 = m.kept[3];
           l6 = m.kept[4];
           l10 = (int) m.kept[5];
           l11 = (int) m.kept[6];
           l12 = (int) m.kept[7];
           l13 = (int) m.kept[8];
           switch (x143) {
           case 1: break L2;
           }
           l10 = 0;
           break L2;
          }
          l4 = f150(m, l0, l1, l2, l3);
          L144: {
           if (!(l6 == 0L)) { break L144; }
           l10 = 0;
           break L2;
          }
          L145: {
           if (l4 != 0) { break L145; }
           l10 = 0;
           break L2;
          }
          L146: {
           if ((l4 = (int) b[((int) l5) - 58912]) <= -1) { break L146; }
           l10 = 0;
           break L2;
          }
          L147: {
           if (l4 + Integer.MIN_VALUE >= 2147483616) { break L147; }
           l10 = 0;
           break L2;
          }
          l10 = l4 & 255;
          l11 = (b[((int) l5) - 58911] & 0xff) & 63;
          l12 = (b[((int) l5) - 58910] & 0xff) & 63;
          L148: {
           L149: {
            if (l4 + Integer.MIN_VALUE > 2147483631) { break L149; }
            l4 = ((l11 << 6) | ((l10 << 12) & 61440)) | l12;
            l3 = 3L;
            break L148;
           }
           l4 = ((l12 << 6) | ((l11 << 12) | ((l10 << 18) & 1835008))) | ((b[((int) l5) - 58909] & 0xff) & 63);
           l3 = 4L;
          }
          l10 = 0;
          if (l4 != 20043) { break L2; }
          l10 = f152(m, l0, l1, l5 + l3, l6 - l3);
          break L2;
         }
         L150: {
          if (!(l3 == 0L)) { break L150; }
          l10 = 0;
          break L2;
         }
         L151: {
          if (((int) b[((int) ((l8 = l2 + l3) + -1L)) - 58912]) <= -1) { break L151; }
          l10 = 0;
          break L2;
         }
         l9 = -2L;
         L152: {
          if ((b[((int) (l8 + -2L)) - 58912] & 0xff) + Integer.MIN_VALUE > -2147483457) { break L152; }
          l9 = ((b[((int) (l8 + -3L)) - 58912] & 0xff) + Integer.MIN_VALUE > -2147483457) ? -3L : -4L;
         }
         L153: {
          if ((l4 = (int) b[((int) (l3 = l2 + (l8 = l9 + l3))) - 58912]) <= -1) { break L153; }
          l10 = 0;
          break L2;
         }
         L154: {
          if (l4 + Integer.MIN_VALUE >= 2147483616) { break L154; }
          l10 = 0;
          break L2;
         }
         l10 = l4 & 255;
         l11 = (b[((int) l3) - 58911] & 0xff) & 63;
         l12 = (b[((int) l3) - 58910] & 0xff) & 63;
         L155: {
          L156: {
           if (l4 + Integer.MIN_VALUE > 2147483631) { break L156; }
           l4 = ((l11 << 6) | ((l10 << 12) & 61440)) | l12;
           break L155;
          }
          l4 = ((l12 << 6) | ((l11 << 12) | ((l10 << 18) & 1835008))) | ((b[((int) l3) - 58909] & 0xff) & 63);
         }
         L157: {
          if (l4 == 20998) { break L157; }
          l10 = 0;
          break L2;
         }
         l10 = 0;
         if (f150(m, l0, l1, l2, l8) == 0) { break L2; }
         l10 = f152(m, l0, l1, l5, l6);
         break L2;
        }
        l10 = 1;
        if (f150(m, l0, l1, l2, l3) != 0) { break L2; }
        l10 = 0;
        if (l3 == 0L) { break L2; }
        l10 = 0;
        L158: {
         if ((l4 = (int) b[((int) (l2 + (l5 = l3 + -1L))) - 58912]) >= 0) { break L158; }
         l5 = -2L;
         L159: {
          if ((b[((int) ((l6 = l2 + l3) + -2L)) - 58912] & 0xff) + Integer.MIN_VALUE > -2147483457) { break L159; }
          l5 = ((b[((int) (l6 + -3L)) - 58912] & 0xff) + Integer.MIN_VALUE > -2147483457) ? -3L : -4L;
         }
         l4 = (l0 = (int) b[((int) (l6 = l2 + (l5 = l5 + l3))) - 58912]) & 255;
         if (l0 > -1) { break L158; }
         l1 = (b[((int) l6) - 58911] & 0xff) & 63;
         L160: {
          if (l0 + Integer.MIN_VALUE > 2147483615) { break L160; }
          l4 = ((l4 << 6) & 1984) | l1;
          break L158;
         }
         l11 = (b[((int) l6) - 58910] & 0xff) & 63;
         L161: {
          if (l0 + Integer.MIN_VALUE > 2147483631) { break L161; }
          l4 = ((l1 << 6) | ((l4 << 12) & 61440)) | l11;
          break L158;
         }
         l4 = ((l11 << 6) | ((l1 << 12) | ((l4 << 18) & 1835008))) | ((b[((int) l6) - 58909] & 0xff) & 63);
        }
        if (l4 != 32) { break L2; }
        if (l5 == 0L) { break L2; }
        L162: {
         if ((l4 = (int) b[((int) ((l6 = l2 + l5) + -1L)) - 58912]) >= 0) { break L162; }
         l3 = -2L;
         L163: {
          if ((b[((int) (l6 + -2L)) - 58912] & 0xff) + Integer.MIN_VALUE > -2147483457) { break L163; }
          l3 = ((b[((int) (l6 + -3L)) - 58912] & 0xff) + Integer.MIN_VALUE > -2147483457) ? -3L : -4L;
         }
         l4 = (l10 = (int) b[((int) (l5 = (l2 + l3) + l5)) - 58912]) & 255;
         if (l10 > -1) { break L162; }
         l0 = (b[((int) l5) - 58911] & 0xff) & 63;
         L164: {
          if (l10 + Integer.MIN_VALUE > 2147483615) { break L164; }
          l4 = ((l4 << 6) & 1984) | l0;
          break L162;
         }
         l1 = (b[((int) l5) - 58910] & 0xff) & 63;
         L165: {
          if (l10 + Integer.MIN_VALUE > 2147483631) { break L165; }
          l4 = ((l0 << 6) | ((l4 << 12) & 61440)) | l1;
          break L162;
         }
         l4 = ((l1 << 6) | ((l0 << 12) | ((l4 << 18) & 1835008))) | ((b[((int) l5) - 58909] & 0xff) & 63);
        }
        l10 = (((l4 + -48) + Integer.MIN_VALUE < -2147483638) | ((l4 + -65296) + Integer.MIN_VALUE < -2147483638)) ? 1 : 0;
        break L2;
       }
       L166: {
        if (f150(m, l0, l1, l2, l3) != 0) { break L166; }
        l10 = 0;
        break L2;
       }
       final int x191 = f148_3(m, l0, l1, l2, l3, l4, l5, l6, l8, l10, l11, l12, l13);
       l2 = m.kept[0];
       l3 = m.kept[1];
       l4 = (int) m.kept[2];
       l5 = m.kept[3];
       l6 = m.kept[4];
       l8 = m.kept[5];
       l10 = (int) m.kept[6];
       l11 = (int) m.kept[7];
       l12 = (int) m.kept[8];
       l13 = (int) m.kept[9];
       switch (x191) {
       default: break L2;
       }
      }
      L192: {
       if (!(l3 == 0L)) { break L192; }
       l10 = 0;
       break L2;
      }
      L193: {
       if (((int) b[((int) ((l8 = l2 + l3) + -1L)) - 58912]) <= -1) { break L193; }
       l10 = 0;
       break L2;
      }
      l9 = -2L;
      L194: {
       if ((b[((int) (l8 + -2L)) - 58912] & 0xff) + Integer.MIN_VALUE > -2147483457) { break L194; }
       l9 = ((b[((int) (l8 + -3L)) - 58912] & 0xff) + Integer.MIN_VALUE > -2147483457) ? -3L : -4L;
      }
      L195: {
       if ((l4 = (int) b[((int) (l3 = l2 + (l8 = l9 + l3))) - 58912]) <= -1) { break L195; }
       l10 = 0;
       break L2;
      }
      L196: {
       if (l4 + Integer.MIN_VALUE >= 2147483616) { break L196; }
       l10 = 0;
       break L2;
      }
      l10 = l4 & 255;
      l11 = (b[((int) l3) - 58911] & 0xff) & 63;
      l12 = (b[((int) l3) - 58910] & 0xff) & 63;
      L197: {
       L198: {
        if (l4 + Integer.MIN_VALUE > 2147483631) { break L198; }
        l4 = ((l11 << 6) | ((l10 << 12) & 61440)) | l12;
        break L197;
       }
       l4 = ((l12 << 6) | ((l11 << 12) | ((l10 << 18) & 1835008))) | ((b[((int) l3) - 58909] & 0xff) & 63);
      }
      L199: {
       if (l4 == 38646) { break L199; }
       l10 = 0;
       break L2;
      }
      L200: {
       if (f150(m, l0, l1, l2, l8) == 0) { break L200; }
       l10 = 0;
       break L2;
      }
      final int x219 = f148_4(m, l3, l4, l5, l6, l10, l11, l12, l13);
      l3 = m.kept[0];
      l4 = (int) m.kept[1];
      l5 = m.kept[2];
      l6 = m.kept[3];
      l10 = (int) m.kept[4];
      l11 = (int) m.kept[5];
      l12 = (int) m.kept[6];
      l13 = (int) m.kept[7];
      switch (x219) {
      case 1: break L2;
      }
      final int x237 = f148_5(m, l0, l1, l4, l7, l10, l11, l12);
      l10 = (int) m.kept[0];
      switch (x237) {
      case 1: break L2;
      }
      l10 = 1;
      if (l4 != 19968) { break L2; }
      if (f153(m, l0, l1, l5, l6) != 0) { break L2; }
      L238: {
       if (!(l6 == 0L)) { break L238; }
       l10 = 0;
       break L2;
      }
      l4 = (l0 = (int) b[((int) l5) - 58912]) & 255;
      L239: {
       if (l0 > -1) { break L239; }
       l1 = (b[((int) l5) - 58911] & 0xff) & 63;
       L240: {
        if (l0 + Integer.MIN_VALUE > 2147483615) { break L240; }
        l4 = ((l4 << 6) & 1984) | l1;
        break L239;
       }
       l11 = (b[((int) l5) - 58910] & 0xff) & 63;
       L241: {
        if (l0 + Integer.MIN_VALUE > 2147483631) { break L241; }
        l4 = ((l1 << 6) | ((l4 << 12) & 61440)) | l11;
        break L239;
       }
       l4 = ((l11 << 6) | ((l1 << 12) | ((l4 << 18) & 1835008))) | ((b[((int) l5) - 58909] & 0xff) & 63);
      }
      L242: {
       L243: {
        if (l4 > 25884) { break L243; }
        if (l4 == 8451) { break L2; }
        if (l4 == 24230) { break L2; }
        if (l4 != 25668) { break L242; }
        break L2;
       }
       if (l4 == 25885) { break L2; }
       if (l4 == 28857) { break L2; }
       if (l4 == 40670) { break L2; }
      }
      l10 = 0;
      break L2;
     }
     L244: {
      if (f153(m, l0, l1, l5, l6) != 0) { break L244; }
      l10 = 0;
      break L2;
     }
     l10 = 0;
     if (f150(m, l0, l1, l2, l3) != 0) { break L2; }
     l10 = 1;
     if (l3 == 0L) { break L2; }
     l10 = 0;
     L245: {
      if ((l4 = (int) b[((int) ((l5 = l2 + l3) + -1L)) - 58912]) >= 0) { break L245; }
      l6 = -2L;
      L246: {
       if ((b[((int) (l5 + -2L)) - 58912] & 0xff) + Integer.MIN_VALUE > -2147483457) { break L246; }
       l6 = ((b[((int) (l5 + -3L)) - 58912] & 0xff) + Integer.MIN_VALUE > -2147483457) ? -3L : -4L;
      }
      l4 = (l0 = (int) b[((int) (l5 = (l2 + l6) + l3)) - 58912]) & 255;
      if (l0 > -1) { break L245; }
      l1 = (b[((int) l5) - 58911] & 0xff) & 63;
      L247: {
       if (l0 + Integer.MIN_VALUE > 2147483615) { break L247; }
       l4 = ((l4 << 6) & 1984) | l1;
       break L245;
      }
      l11 = (b[((int) l5) - 58910] & 0xff) & 63;
      L248: {
       if (l0 + Integer.MIN_VALUE > 2147483631) { break L248; }
       l4 = ((l1 << 6) | ((l4 << 12) & 61440)) | l11;
       break L245;
      }
      l4 = ((l11 << 6) | ((l1 << 12) | ((l4 << 18) & 1835008))) | ((b[((int) l5) - 58909] & 0xff) & 63);
     }
     L249: {
      L250: {
       if (l4 > 27490) { break L250; }
       L251: {
        if (l4 > 25284) { break L251; }
        if (l4 == 19981) { break L2; }
        if (l4 == 21213) { break L2; }
        if (l4 != 25265) { break L249; }
        break L2;
       }
       L252: {
        if (l4 > 25811) { break L252; }
        if (l4 == 25285) { break L2; }
        if (l4 != 25593) { break L249; }
        break L2;
       }
       if (l4 == 25812) { break L2; }
       if (l4 != 27450) { break L249; }
       break L2;
      }
      L253: {
       if (l4 > 33257) { break L253; }
       L254: {
        switch (l4 + -32972) {
        case 0: case 16: break L2;
        case 1: case 2: case 3: case 4: case 5: case 6: case 7: case 8: case 9: case 10: case 11: case 12: case 13: case 14: case 15: break L249;
        default: break L254;
        }
       }
       if (l4 == 27491) { break L2; }
       if (l4 != 32937) { break L249; }
       break L2;
      }
      if (l4 == 33258) { break L2; }
      if (l4 == 36764) { break L2; }
      if (l4 == 38750) { break L2; }
     }
     l10 = 1;
     break L2;
    }
    L255: {
     if (!(l6 == 0L)) { break L255; }
     l10 = 0;
     break L2;
    }
    l4 = (l10 = (int) b[((int) l5) - 58912]) & 255;
    l8 = 1L;
    L256: {
     if (l10 > -1) { break L256; }
     l11 = (b[((int) l5) - 58911] & 0xff) & 63;
     L257: {
      if (l10 + Integer.MIN_VALUE > 2147483615) { break L257; }
      l4 = ((l4 << 6) & 1984) | l11;
      l8 = 2L;
      break L256;
     }
     l12 = (b[((int) l5) - 58910] & 0xff) & 63;
     L258: {
      if (l10 + Integer.MIN_VALUE > 2147483631) { break L258; }
      l4 = ((l11 << 6) | ((l4 << 12) & 61440)) | l12;
      l8 = 3L;
      break L256;
     }
     l4 = ((l12 << 6) | ((l11 << 12) | ((l4 << 18) & 1835008))) | ((b[((int) l5) - 58909] & 0xff) & 63);
     l8 = 4L;
    }
    final int x265 = f148_6(m, l4, l5, l6, l8, l10, l11, l12);
    l4 = (int) m.kept[0];
    l5 = m.kept[1];
    l10 = (int) m.kept[2];
    l11 = (int) m.kept[3];
    l12 = (int) m.kept[4];
    switch (x265) {
    case 1: break L2;
    }
    l10 = f154(m, l0, l1, l2, l3);
    break L2;
   }
   L266: {
    if (!(l6 == 0L)) { break L266; }
    l10 = 0;
    break L2;
   }
   l4 = (l10 = (int) b[((int) l5) - 58912]) & 255;
   L267: {
    if (l10 > -1) { break L267; }
    l11 = (b[((int) l5) - 58911] & 0xff) & 63;
    L268: {
     if (l10 + Integer.MIN_VALUE > 2147483615) { break L268; }
     l4 = ((l4 << 6) & 1984) | l11;
     break L267;
    }
    l12 = (b[((int) l5) - 58910] & 0xff) & 63;
    L269: {
     if (l10 + Integer.MIN_VALUE > 2147483631) { break L269; }
     l4 = ((l11 << 6) | ((l4 << 12) & 61440)) | l12;
     break L267;
    }
    l4 = ((l12 << 6) | ((l11 << 12) | ((l4 << 18) & 1835008))) | ((b[((int) l5) - 58909] & 0xff) & 63);
   }
   L270: {
    if (!(l3 == 0L)) { break L270; }
    l10 = 0;
    break L2;
   }
   l10 = 0;
   if (((l4 + -58) + Integer.MIN_VALUE < 2147483638) & ((l4 + -65306) + Integer.MIN_VALUE < 2147483638)) { break L2; }
   l10 = 0;
   L271: {
    if ((l4 = (int) b[((int) (l2 + (l5 = l3 + -1L))) - 58912]) >= 0) { break L271; }
    l5 = -2L;
    L272: {
     if ((b[((int) ((l6 = l2 + l3) + -2L)) - 58912] & 0xff) + Integer.MIN_VALUE > -2147483457) { break L272; }
     l5 = ((b[((int) (l6 + -3L)) - 58912] & 0xff) + Integer.MIN_VALUE > -2147483457) ? -3L : -4L;
    }
    l4 = (l11 = (int) b[((int) (l6 = l2 + (l5 = l5 + l3))) - 58912]) & 255;
    if (l11 > -1) { break L271; }
    l12 = (b[((int) l6) - 58911] & 0xff) & 63;
    L273: {
     if (l11 + Integer.MIN_VALUE > 2147483615) { break L273; }
     l4 = ((l4 << 6) & 1984) | l12;
     break L271;
    }
    l13 = (b[((int) l6) - 58910] & 0xff) & 63;
    L274: {
     if (l11 + Integer.MIN_VALUE > 2147483631) { break L274; }
     l4 = ((l12 << 6) | ((l4 << 12) & 61440)) | l13;
     break L271;
    }
    l4 = ((l13 << 6) | ((l12 << 12) | ((l4 << 18) & 1835008))) | ((b[((int) l6) - 58909] & 0xff) & 63);
   }
   L275: {
    if (l4 == 45) { break L275; }
    if (l4 == 65293) { break L275; }
    if (l4 != 8722) { break L2; }
   }
   l10 = f154(m, l0, l1, l2, l5);
  }
  m.g0 = l7 + 32L;
  final int t276 = l10;
  return t276;
 }
 throw State.trap();
}

static void f149(State m, long l0, int l1, int l2, long l3, long l4, int l5, long l6, long l7) {
 final byte[] b = m.bytes;
 long l8 = 0;
 long l9 = 0;
 long l10 = 0;
 long l11 = 0;
 int l12 = 0;
 int l13 = 0;
 int l14 = 0;
 int l15 = 0;
 int l16 = 0;
 m.g0 = l8 = m.g0 - 16L;
 L1: {
  if ((l9 = l8) < 16L) { break L1; }
  L2: {
   L3: while (true) {
    l8 = l6;
    l12 = l5;
    L4: {
     L5: {
      L6: {
       if ((l10 = l7) + Long.MIN_VALUE < -9223372036854775805L) { break L6; }
       if (((l13 = b[((int) l8) - 58912] & 0xff) & 240) != 224) { break L5; }
       final int t7 = b[((int) ((l7 = ((((l15 = (((l5 = b[((int) l8) - 58911] & 0xff) << 8) | ((l14 = b[((int) l8) - 58910] & 0xff) << 16)) | l13) & 0xffffffffL) * 953497L) >>> 22L) & 1016L) + 66857L)) - 58912] & 0xff;
       final int t8 = l15 = (Words.get32(b, State.far((int) l7, 66852)) == l15) ? 1 : 0;
       l16 = t8 != 0 ? t7 : 0;
       final int t9 = b[((int) (l7 + 66856L)) - 58912] & 0xff;
       final int t10 = l15;
       l15 = t10 != 0 ? t9 : 2;
       l5 = ((l14 + (l5 << 6)) + (l13 << 12)) + -925824;
       l7 = l10 + -3L;
       l6 = l8 + 3L;
       break L4;
      }
      if (l10 == 0L) { break L2; }
      l13 = b[((int) l8) - 58912] & 0xff;
     }
     l5 = l13 & 255;
     l6 = 1L;
     L11: {
      if (((int) (byte) l13) > -1) { break L11; }
      l15 = (b[((int) l8) - 58911] & 0xff) & 63;
      L12: {
       if ((l13 & 255) + Integer.MIN_VALUE > -2147483425) { break L12; }
       l5 = ((l5 << 6) & 1984) | l15;
       l6 = 2L;
       break L11;
      }
      l16 = (b[((int) l8) - 58910] & 0xff) & 63;
      L13: {
       if ((l13 & 255) + Integer.MIN_VALUE > -2147483409) { break L13; }
       l5 = ((l15 << 6) | ((l5 << 12) & 61440)) | l16;
       l6 = 3L;
       break L11;
      }
      l5 = ((l16 << 6) | ((l15 << 12) | ((l5 << 18) & 1835008))) | ((b[((int) l8) - 58909] & 0xff) & 63);
      l6 = 4L;
     }
     l7 = l10 - l6;
     l6 = l8 + l6;
     L14: {
      if ((l5 + -2048) + Integer.MIN_VALUE > -2147420161) { break L14; }
      final int t15 = b[((int) ((l11 = ((((l13 = (((l5 >>> 12) | ((l5 << 2) & 16128)) | ((l5 << 16) & 4128768)) | 8421600) & 0xffffffffL) * 953497L) >>> 22L) & 1016L) + 66857L)) - 58912] & 0xff;
      final int t16 = l13 = (Words.get32(b, State.far((int) l11, 66852)) == l13) ? 1 : 0;
      l16 = t16 != 0 ? t15 : 0;
      final int t17 = b[((int) (l11 + 66856L)) - 58912] & 0xff;
      final int t18 = l13;
      l15 = t18 != 0 ? t17 : 2;
      break L4;
     }
     final int t19 = l13 = l5 + -48;
     final int t20 = l13 = (l13 + Integer.MIN_VALUE < -2147483638) ? 1 : 0;
     l16 = t20 != 0 ? t19 : 0;
     l15 = l13 != 0 ? 0 : 2;
    }
    L21: {
     L22: {
      L23: {
       if (l5 == 21317) { break L23; }
       if (l5 == 24319) { break L23; }
       if ((l5 + -65296) + Integer.MIN_VALUE < -2147483638) { break L23; }
       L24: {
        L25: {
         if (l5 > 20490) { break L25; }
         L26: {
          if (l5 > 19978) { break L26; }
          L27: {
           if (l5 > 8239) { break L27; }
           L28: {
            switch (l5 + -32) {
            case 0: case 5: break L23;
            case 1: case 2: case 3: case 4: break L24;
            default: break L28;
            }
           }
           if (l5 != 165) { break L24; }
           break L23;
          }
          if (l5 == 8240) { break L23; }
          if (l5 != 8722) { break L24; }
          break L23;
         }
         L29: {
          if (l5 > 20042) { break L29; }
          L30: {
           switch (l5 + -20004) {
           case 0: case 6: break L23;
           case 1: case 2: case 3: case 4: case 5: break L24;
           default: break L30;
           }
          }
          if (l5 != 19979) { break L24; }
          break L23;
         }
         if (l5 == 20043) { break L23; }
         if (l5 != 20191) { break L24; }
         break L23;
        }
        L31: {
         if (l5 > 28856) { break L31; }
         L32: {
          if (l5 > 20997) { break L32; }
          if (l5 == 20491) { break L23; }
          if (l5 != 20841) { break L24; }
          break L23;
         }
         if (l5 == 20998) { break L23; }
         if (l5 == 21315) { break L23; }
         if (l5 != 21448) { break L24; }
         break L23;
        }
        L33: {
         if (l5 > 40669) { break L33; }
         if (l5 == 28857) { break L23; }
         if (l5 == 36000) { break L23; }
         if (l5 != 36127) { break L24; }
         break L23;
        }
        if (l5 == 40670) { break L23; }
        if (l5 == 65285) { break L23; }
        if (l5 == 65509) { break L23; }
       }
       if (l5 + Integer.MIN_VALUE < -2147483604) { break L22; }
       if (l5 + Integer.MIN_VALUE < -2147483601) { break L23; }
       if ((l5 + -65292) + Integer.MIN_VALUE > -2147483646) { break L22; }
      }
      l11 = l4 - l10;
      L34: {
       L35: {
        if ((l15 & 255) != 2) { break L35; }
        if (l5 == 21317) { break L21; }
        if (l5 == 24319) { break L21; }
        if ((l5 + -65296) + Integer.MIN_VALUE >= -2147483638) { break L34; }
        break L21;
       }
       if (Core4.f146(m, l1, l2, l5, l15, l16, l6, l7) == 0) { break L34; }
       if (f147(m, l1, l2, l3, l11, l5, l6, l7) == 0) { break L21; }
      }
      if (f148(m, l1, l2, l3, l11, l5, l6, l7) != 0) { break L21; }
      break L2;
     }
     L36: {
      L37: {
       switch ((int) ((l15 & 0xffffffffL) & 255L)) {
       case 1: break L37;
       case 2: break L2;
       default: break L36;
       }
      }
      if ((l2 & 255) + Integer.MIN_VALUE < (l16 & 255) + Integer.MIN_VALUE) { break L2; }
     }
     L38: {
      if ((l1 & 1) != 0) { break L38; }
      L39: {
       L40: {
        if (l5 > 29589) { break L40; }
        L41: {
         if (l5 > 22776) { break L41; }
         if (l5 == 20191) { break L2; }
         if (l5 == 20237) { break L2; }
         if (l5 != 20336) { break L39; }
         break L2;
        }
        L42: {
         if (l5 > 25419) { break L42; }
         if (l5 == 22777) { break L2; }
         if (l5 != 25342) { break L39; }
         break L2;
        }
        if (l5 == 25420) { break L2; }
        if (l5 != 26578) { break L39; }
        break L2;
       }
       L43: {
        if (l5 > 36143) { break L43; }
        L44: {
         switch (l5 + -36014) {
         case 0: case 5: break L2;
         case 1: case 2: case 3: case 4: break L39;
         default: break L44;
         }
        }
        if (l5 == 29590) { break L2; }
        if (l5 != 32902) { break L39; }
        break L2;
       }
       if (l5 == 36144) { break L2; }
       if (l5 == 38470) { break L2; }
       if (l5 == 38520) { break L2; }
      }
      if ((l5 + -21441) + Integer.MIN_VALUE < -2147483644) { break L2; }
     }
     if ((l15 & 255) != 1) { break L21; }
     if (((1 << (l13 = l16 & 255)) & 65470) != 0) { break L21; }
     L45: {
      if (l13 == 0) { break L45; }
      if (Core3.f108(m, l6, l7) == 0) { break L21; }
      break L2;
     }
     if (Core3.f109(m, l1, l2, l6, l7) == 0) { break L2; }
    }
    L46: {
     L47: {
      if ((l12 + -48) + Integer.MIN_VALUE < -2147483638) { break L47; }
      if ((l12 + -65296) + Integer.MIN_VALUE > -2147483639) { break L46; }
     }
     Core2.f63(m, l9 + 8L, l5);
     L48: {
      if ((l5 + -58) + Integer.MIN_VALUE > 2147483637) { break L48; }
      if (((b[((int) l9) - 58904] & 0xff) & 255) == 1) { break L2; }
     }
     if (l5 == 21317) { break L2; }
     if (l5 == 24319) { break L2; }
    }
    Core2.f63(m, l9, l12);
    L49: {
     L50: {
      L51: {
       if ((l12 + -58) + Integer.MIN_VALUE > 2147483637) { break L51; }
       if (((b[((int) l9) - 58912] & 0xff) & 255) == 1) { break L50; }
      }
      L52: {
       if (l12 > 24318) { break L52; }
       if (l12 == 21317) { break L49; }
       if (l12 == 37) { break L2; }
       if (l12 != 8240) { continue L3; }
       break L2;
      }
      if (l12 == 24319) { break L49; }
      if (l12 != 65285) { continue L3; }
      break L2;
     }
     if (l12 == 12295) { continue L3; }
     if (l12 == 38646) { continue L3; }
    }
    if ((l5 + -48) + Integer.MIN_VALUE < -2147483638) { break L2; }
    if ((l5 + -65296) + Integer.MIN_VALUE < -2147483638) { break L2; }
    if (l12 == 37) { break L2; }
    if (l12 == 65285) { break L2; }
    if (l12 != 8240) { continue L3; }
    break L3;
   }
  }
  Words.put64(b, ((int) l0) - 58904, l10);
  Words.put64(b, ((int) l0) - 58912, l8);
  m.g0 = l9 + 16L;
  return;
 }
 throw State.trap();
}

static int f150(State m, int l0, int l1, long l2, long l3) {
 final byte[] b = m.bytes;
 long l4 = 0;
 long l5 = 0;
 long l6 = 0;
 int l7 = 0;
 int l8 = 0;
 int l9 = 0;
 int l10 = 0;
 L1: {
  if ((l4 = m.g0) < 16L) { break L1; }
  L2: {
   if (!(l3 == 0L)) { break L2; }
   m.g0 = l4;
   return 0;
  }
  L3: {
   if ((l7 = (int) b[((int) ((l5 = l2 + l3) + -1L)) - 58912]) >= 0) { break L3; }
   l6 = -2L;
   L4: {
    if ((b[((int) (l5 + -2L)) - 58912] & 0xff) + Integer.MIN_VALUE > -2147483457) { break L4; }
    l6 = ((b[((int) (l5 + -3L)) - 58912] & 0xff) + Integer.MIN_VALUE > -2147483457) ? -3L : -4L;
   }
   l7 = (l8 = (int) b[((int) (l3 = (l2 + l6) + l3)) - 58912]) & 255;
   if (l8 > -1) { break L3; }
   l9 = (b[((int) l3) - 58911] & 0xff) & 63;
   L5: {
    if (l8 + Integer.MIN_VALUE > 2147483615) { break L5; }
    l7 = ((l7 << 6) & 1984) | l9;
    break L3;
   }
   l10 = (b[((int) l3) - 58910] & 0xff) & 63;
   L6: {
    if (l8 + Integer.MIN_VALUE > 2147483631) { break L6; }
    l7 = ((l9 << 6) | ((l7 << 12) & 61440)) | l10;
    break L3;
   }
   l7 = ((l10 << 6) | ((l9 << 12) | ((l7 << 18) & 1835008))) | ((b[((int) l3) - 58909] & 0xff) & 63);
  }
  L7: {
   L8: {
    if ((l7 + -2048) + Integer.MIN_VALUE > -2147420161) { break L8; }
    final int t9 = b[((int) ((l3 = ((((l8 = (((l7 >>> 12) | ((l7 << 2) & 16128)) | ((l7 << 16) & 4128768)) | 8421600) & 0xffffffffL) * 953497L) >>> 22L) & 1016L) + 66857L)) - 58912] & 0xff;
    final int t10 = l9 = (Words.get32(b, State.far((int) l3, 66852)) == l8) ? 1 : 0;
    l8 = t10 != 0 ? t9 : 0;
    final int t11 = b[((int) (l3 + 66856L)) - 58912] & 0xff;
    final int t12 = l9;
    l9 = t12 != 0 ? t11 : 2;
    break L7;
   }
   final int t13 = l8 = l7 + -48;
   final int t14 = l9 = (l8 + Integer.MIN_VALUE < -2147483638) ? 1 : 0;
   l8 = t14 != 0 ? t13 : 0;
   l9 = l9 != 0 ? 0 : 2;
  }
  l7 = Core4.f146(m, l0, l1, l7, l9, l8, 83372L, 0L);
  m.g0 = l4;
  final int t15 = l7;
  return t15;
 }
 throw State.trap();
}

static int f151(State m, long l0, long l1, long l2, long l3) {
 final byte[] b = m.bytes;
 long l4 = 0;
 long l5 = 0;
 long l6 = 0;
 int l7 = 0;
 int l8 = 0;
 int l9 = 0;
 int l10 = 0;
 int l11 = 0;
 int l12 = 0;
 int l13 = 0;
 L1: {
  if (m.g0 < 16L) { break L1; }
  L2: {
   if (!(l1 == 0L)) { break L2; }
   return 0;
  }
  L3: {
   if ((l7 = (int) b[((int) (l0 + (l4 = l1 + -1L))) - 58912]) >= 0) { break L3; }
   l4 = -2L;
   L4: {
    if ((b[((int) ((l5 = l0 + l1) + -2L)) - 58912] & 0xff) + Integer.MIN_VALUE > -2147483457) { break L4; }
    l4 = ((b[((int) (l5 + -3L)) - 58912] & 0xff) + Integer.MIN_VALUE > -2147483457) ? -3L : -4L;
   }
   l7 = (l8 = (int) b[((int) (l5 = l0 + (l4 = l4 + l1))) - 58912]) & 255;
   if (l8 > -1) { break L3; }
   l9 = (b[((int) l5) - 58911] & 0xff) & 63;
   L5: {
    if (l8 + Integer.MIN_VALUE > 2147483615) { break L5; }
    l7 = ((l7 << 6) & 1984) | l9;
    break L3;
   }
   l10 = (b[((int) l5) - 58910] & 0xff) & 63;
   L6: {
    if (l8 + Integer.MIN_VALUE > 2147483631) { break L6; }
    l7 = ((l9 << 6) | ((l7 << 12) & 61440)) | l10;
    break L3;
   }
   l7 = ((l10 << 6) | ((l9 << 12) | ((l7 << 18) & 1835008))) | ((b[((int) l5) - 58909] & 0xff) & 63);
  }
  L7: {
   L8: {
    L9: {
     L10: {
      if ((l7 + -48) + Integer.MIN_VALUE < -2147483638) { break L10; }
      if ((l7 + -65296) + Integer.MIN_VALUE > -2147483639) { break L9; }
     }
     L11: {
      if (l7 == 48) { break L11; }
      if (l7 == 65296) { break L11; }
      if (l4 == 0L) { break L8; }
      L12: {
       if ((l7 = (int) b[((int) ((l5 = l0 + l4) + -1L)) - 58912]) >= 0) { break L12; }
       l6 = -2L;
       L13: {
        if ((b[((int) (l5 + -2L)) - 58912] & 0xff) + Integer.MIN_VALUE > -2147483457) { break L13; }
        l6 = ((b[((int) (l5 + -3L)) - 58912] & 0xff) + Integer.MIN_VALUE > -2147483457) ? -3L : -4L;
       }
       l7 = (l8 = (int) b[((int) (l5 = (l0 + l6) + l4)) - 58912]) & 255;
       if (l8 > -1) { break L12; }
       l9 = (b[((int) l5) - 58911] & 0xff) & 63;
       L14: {
        if (l8 + Integer.MIN_VALUE > 2147483615) { break L14; }
        l7 = ((l7 << 6) & 1984) | l9;
        break L12;
       }
       l10 = (b[((int) l5) - 58910] & 0xff) & 63;
       L15: {
        if (l8 + Integer.MIN_VALUE > 2147483631) { break L15; }
        l7 = ((l9 << 6) | ((l7 << 12) & 61440)) | l10;
        break L12;
       }
       l7 = ((l10 << 6) | ((l9 << 12) | ((l7 << 18) & 1835008))) | ((b[((int) l5) - 58909] & 0xff) & 63);
      }
      if ((l7 + -48) + Integer.MIN_VALUE < -2147483638) { break L11; }
      if ((l7 + -65296) + Integer.MIN_VALUE < -2147483638) { break L11; }
      L16: {
       switch (l7 + -44) {
       case 0: case 2: break L11;
       case 1: break L8;
       default: break L16;
       }
      }
      if (l7 != 65294) { break L8; }
     }
     if (l4 == 0L) { break L9; }
     L17: {
      if ((l7 = (int) b[((int) (l0 + (l5 = l4 + -1L))) - 58912]) > -1) { break L17; }
      l5 = -2L;
      L18: {
       if ((b[((int) ((l6 = l0 + l4) + -2L)) - 58912] & 0xff) + Integer.MIN_VALUE > -2147483457) { break L18; }
       l5 = ((b[((int) (l6 + -3L)) - 58912] & 0xff) + Integer.MIN_VALUE > -2147483457) ? -3L : -4L;
      }
      l7 = (l8 = (int) b[((int) (l4 = l0 + (l5 = l5 + l4))) - 58912]) & 255;
      if (l8 > -1) { break L17; }
      l9 = (b[((int) l4) - 58911] & 0xff) & 63;
      L19: {
       if (l8 + Integer.MIN_VALUE < 2147483616) { break L19; }
       l10 = (b[((int) l4) - 58910] & 0xff) & 63;
       L20: {
        if (l8 + Integer.MIN_VALUE < 2147483632) { break L20; }
        l7 = ((l10 << 6) | ((l9 << 12) | ((l7 << 18) & 1835008))) | ((b[((int) l4) - 58909] & 0xff) & 63);
        break L17;
       }
       l7 = ((l9 << 6) | ((l7 << 12) & 61440)) | l10;
       break L17;
      }
      l7 = ((l7 << 6) & 1984) | l9;
     }
     L21: {
      if ((l7 + -48) + Integer.MIN_VALUE < -2147483638) { break L21; }
      if ((l7 + -65296) + Integer.MIN_VALUE > -2147483639) { break L9; }
     }
     L22: {
      if (l7 == 48) { break L22; }
      if (l7 == 65296) { break L22; }
      if (l5 == 0L) { break L8; }
      L23: {
       if ((l7 = (int) b[((int) ((l4 = l0 + l5) + -1L)) - 58912]) > -1) { break L23; }
       l6 = -2L;
       L24: {
        if ((b[((int) (l4 + -2L)) - 58912] & 0xff) + Integer.MIN_VALUE > -2147483457) { break L24; }
        l6 = ((b[((int) (l4 + -3L)) - 58912] & 0xff) + Integer.MIN_VALUE > -2147483457) ? -3L : -4L;
       }
       l7 = (l8 = (int) b[((int) (l4 = (l0 + l6) + l5)) - 58912]) & 255;
       if (l8 > -1) { break L23; }
       l9 = (b[((int) l4) - 58911] & 0xff) & 63;
       L25: {
        if (l8 + Integer.MIN_VALUE < 2147483616) { break L25; }
        l10 = (b[((int) l4) - 58910] & 0xff) & 63;
        L26: {
         if (l8 + Integer.MIN_VALUE < 2147483632) { break L26; }
         l7 = ((l10 << 6) | ((l9 << 12) | ((l7 << 18) & 1835008))) | ((b[((int) l4) - 58909] & 0xff) & 63);
         break L23;
        }
        l7 = ((l9 << 6) | ((l7 << 12) & 61440)) | l10;
        break L23;
       }
       l7 = ((l7 << 6) & 1984) | l9;
      }
      if ((l7 + -48) + Integer.MIN_VALUE < -2147483638) { break L22; }
      if ((l7 + -65296) + Integer.MIN_VALUE < -2147483638) { break L22; }
      L27: {
       switch (l7 + -44) {
       case 0: case 2: break L22;
       case 1: break L8;
       default: break L27;
       }
      }
      if (l7 != 65294) { break L8; }
     }
     if (l5 == 0L) { break L9; }
     L28: {
      if ((l7 = (int) b[((int) (l0 + (l4 = l5 + -1L))) - 58912]) > -1) { break L28; }
      l4 = -2L;
      L29: {
       if ((b[((int) ((l6 = l0 + l5) + -2L)) - 58912] & 0xff) + Integer.MIN_VALUE > -2147483457) { break L29; }
       l4 = ((b[((int) (l6 + -3L)) - 58912] & 0xff) + Integer.MIN_VALUE > -2147483457) ? -3L : -4L;
      }
      l7 = (l8 = (int) b[((int) (l5 = l0 + (l4 = l4 + l5))) - 58912]) & 255;
      if (l8 > -1) { break L28; }
      l9 = (b[((int) l5) - 58911] & 0xff) & 63;
      L30: {
       if (l8 + Integer.MIN_VALUE < 2147483616) { break L30; }
       l10 = (b[((int) l5) - 58910] & 0xff) & 63;
       L31: {
        if (l8 + Integer.MIN_VALUE < 2147483632) { break L31; }
        l7 = ((l10 << 6) | ((l9 << 12) | ((l7 << 18) & 1835008))) | ((b[((int) l5) - 58909] & 0xff) & 63);
        break L28;
       }
       l7 = ((l9 << 6) | ((l7 << 12) & 61440)) | l10;
       break L28;
      }
      l7 = ((l7 << 6) & 1984) | l9;
     }
     L32: {
      if ((l7 + -48) + Integer.MIN_VALUE < -2147483638) { break L32; }
      if ((l7 + -65296) + Integer.MIN_VALUE > -2147483639) { break L9; }
     }
     if (l7 == 48) { break L9; }
     if (l7 == 65296) { break L9; }
     if (l4 == 0L) { break L8; }
     L33: {
      if ((l7 = (int) b[((int) ((l5 = l0 + l4) + -1L)) - 58912]) > -1) { break L33; }
      l6 = -2L;
      L34: {
       if ((b[((int) (l5 + -2L)) - 58912] & 0xff) + Integer.MIN_VALUE > -2147483457) { break L34; }
       l6 = ((b[((int) (l5 + -3L)) - 58912] & 0xff) + Integer.MIN_VALUE > -2147483457) ? -3L : -4L;
      }
      l7 = (l8 = (int) b[((int) (l4 = (l0 + l6) + l4)) - 58912]) & 255;
      if (l8 > -1) { break L33; }
      l9 = (b[((int) l4) - 58911] & 0xff) & 63;
      L35: {
       if (l8 + Integer.MIN_VALUE < 2147483616) { break L35; }
       l10 = (b[((int) l4) - 58910] & 0xff) & 63;
       L36: {
        if (l8 + Integer.MIN_VALUE < 2147483632) { break L36; }
        l7 = ((l10 << 6) | ((l9 << 12) | ((l7 << 18) & 1835008))) | ((b[((int) l4) - 58909] & 0xff) & 63);
        break L33;
       }
       l7 = ((l9 << 6) | ((l7 << 12) & 61440)) | l10;
       break L33;
      }
      l7 = ((l7 << 6) & 1984) | l9;
     }
     if ((l7 + -48) + Integer.MIN_VALUE < -2147483638) { break L9; }
     if ((l7 + -65296) + Integer.MIN_VALUE < -2147483638) { break L9; }
     L37: {
      switch (l7 + -44) {
      case 0: case 2: break L9;
      case 1: break L8;
      default: break L37;
      }
     }
     if (l7 != 65294) { break L8; }
    }
    l7 = 0;
    L38: {
     if ((l8 = (int) b[((int) (l0 + (l4 = l1 + -1L))) - 58912]) >= 0) { break L38; }
     l4 = -2L;
     L39: {
      if ((b[((int) ((l5 = l0 + l1) + -2L)) - 58912] & 0xff) + Integer.MIN_VALUE > -2147483457) { break L39; }
      l4 = ((b[((int) (l5 + -3L)) - 58912] & 0xff) + Integer.MIN_VALUE > -2147483457) ? -3L : -4L;
     }
     l8 = (l9 = (int) b[((int) (l1 = l0 + (l4 = l4 + l1))) - 58912]) & 255;
     if (l9 > -1) { break L38; }
     l10 = (b[((int) l1) - 58911] & 0xff) & 63;
     L40: {
      if (l9 + Integer.MIN_VALUE > 2147483615) { break L40; }
      l8 = ((l8 << 6) & 1984) | l10;
      break L38;
     }
     l11 = (b[((int) l1) - 58910] & 0xff) & 63;
     L41: {
      if (l9 + Integer.MIN_VALUE > 2147483631) { break L41; }
      l8 = ((l10 << 6) | ((l8 << 12) & 61440)) | l11;
      break L38;
     }
     l8 = ((l11 << 6) | ((l10 << 12) | ((l8 << 18) & 1835008))) | ((b[((int) l1) - 58909] & 0xff) & 63);
    }
    if (l4 == 0L) { break L7; }
    l7 = 0;
    L42: {
     if ((l9 = (int) b[((int) (l0 + (l1 = l4 + -1L))) - 58912]) >= 0) { break L42; }
     l1 = -2L;
     L43: {
      if ((b[((int) ((l5 = l0 + l4) + -2L)) - 58912] & 0xff) + Integer.MIN_VALUE > -2147483457) { break L43; }
      l1 = ((b[((int) (l5 + -3L)) - 58912] & 0xff) + Integer.MIN_VALUE > -2147483457) ? -3L : -4L;
     }
     l9 = (l10 = (int) b[((int) (l4 = l0 + (l1 = l1 + l4))) - 58912]) & 255;
     if (l10 > -1) { break L42; }
     l11 = (b[((int) l4) - 58911] & 0xff) & 63;
     L44: {
      if (l10 + Integer.MIN_VALUE > 2147483615) { break L44; }
      l9 = ((l9 << 6) & 1984) | l11;
      break L42;
     }
     l12 = (b[((int) l4) - 58910] & 0xff) & 63;
     L45: {
      if (l10 + Integer.MIN_VALUE > 2147483631) { break L45; }
      l9 = ((l11 << 6) | ((l9 << 12) & 61440)) | l12;
      break L42;
     }
     l9 = ((l12 << 6) | ((l11 << 12) | ((l9 << 18) & 1835008))) | ((b[((int) l4) - 58909] & 0xff) & 63);
    }
    if (l1 == 0L) { break L7; }
    l7 = 0;
    L46: {
     if ((l10 = (int) b[((int) (l0 + (l4 = l1 + -1L))) - 58912]) >= 0) { break L46; }
     l4 = -2L;
     L47: {
      if ((b[((int) ((l5 = l0 + l1) + -2L)) - 58912] & 0xff) + Integer.MIN_VALUE > -2147483457) { break L47; }
      l4 = ((b[((int) (l5 + -3L)) - 58912] & 0xff) + Integer.MIN_VALUE > -2147483457) ? -3L : -4L;
     }
     l10 = (l11 = (int) b[((int) (l1 = l0 + (l4 = l4 + l1))) - 58912]) & 255;
     if (l11 > -1) { break L46; }
     l12 = (b[((int) l1) - 58911] & 0xff) & 63;
     L48: {
      if (l11 + Integer.MIN_VALUE > 2147483615) { break L48; }
      l10 = ((l10 << 6) & 1984) | l12;
      break L46;
     }
     l13 = (b[((int) l1) - 58910] & 0xff) & 63;
     L49: {
      if (l11 + Integer.MIN_VALUE > 2147483631) { break L49; }
      l10 = ((l12 << 6) | ((l10 << 12) & 61440)) | l13;
      break L46;
     }
     l10 = ((l13 << 6) | ((l12 << 12) | ((l10 << 18) & 1835008))) | ((b[((int) l1) - 58909] & 0xff) & 63);
    }
    L50: {
     if ((l8 + -48) + Integer.MIN_VALUE < -2147483638) { break L50; }
     if ((l8 + -65296) + Integer.MIN_VALUE > -2147483639) { break L7; }
    }
    L51: {
     if ((l9 + -48) + Integer.MIN_VALUE < -2147483638) { break L51; }
     if ((l9 + -65296) + Integer.MIN_VALUE > -2147483639) { break L7; }
    }
    if (l4 == 0L) { break L7; }
    if (((l10 + -58) + Integer.MIN_VALUE < 2147483638) & ((l10 + -65306) + Integer.MIN_VALUE < 2147483638)) { break L7; }
    l7 = 0;
    L52: {
     if ((l8 = (int) b[((int) ((l1 = l0 + l4) + -1L)) - 58912]) >= 0) { break L52; }
     l5 = -2L;
     L53: {
      if ((b[((int) (l1 + -2L)) - 58912] & 0xff) + Integer.MIN_VALUE > -2147483457) { break L53; }
      l5 = ((b[((int) (l1 + -3L)) - 58912] & 0xff) + Integer.MIN_VALUE > -2147483457) ? -3L : -4L;
     }
     l8 = (l9 = (int) b[((int) (l0 = (l0 + l5) + l4)) - 58912]) & 255;
     if (l9 > -1) { break L52; }
     l10 = (b[((int) l0) - 58911] & 0xff) & 63;
     L54: {
      if (l9 + Integer.MIN_VALUE > 2147483615) { break L54; }
      l8 = ((l8 << 6) & 1984) | l10;
      break L52;
     }
     l11 = (b[((int) l0) - 58910] & 0xff) & 63;
     L55: {
      if (l9 + Integer.MIN_VALUE > 2147483631) { break L55; }
      l8 = ((l10 << 6) | ((l8 << 12) & 61440)) | l11;
      break L52;
     }
     l8 = ((l11 << 6) | ((l10 << 12) | ((l8 << 18) & 1835008))) | ((b[((int) l0) - 58909] & 0xff) & 63);
    }
    if (l8 == 65292) { break L8; }
    if (l8 != 44) { break L7; }
   }
   l7 = 0;
   if (l3 == 0L) { break L7; }
   l9 = (l8 = (int) b[((int) l2) - 58912]) & 255;
   l0 = 1L;
   L56: {
    if (l8 > -1) { break L56; }
    l10 = (b[((int) l2) - 58911] & 0xff) & 63;
    L57: {
     if (l8 + Integer.MIN_VALUE > 2147483615) { break L57; }
     l9 = ((l9 << 6) & 1984) | l10;
     l0 = 2L;
     break L56;
    }
    l11 = (b[((int) l2) - 58910] & 0xff) & 63;
    L58: {
     if (l8 + Integer.MIN_VALUE > 2147483631) { break L58; }
     l9 = ((l10 << 6) | ((l9 << 12) & 61440)) | l11;
     l0 = 3L;
     break L56;
    }
    l9 = ((l11 << 6) | ((l10 << 12) | ((l9 << 18) & 1835008))) | ((b[((int) l2) - 58909] & 0xff) & 63);
    l0 = 4L;
   }
   if (l3 == l0) { break L7; }
   l10 = (l8 = (int) b[((int) (l4 = l2 + l0)) - 58912]) & 255;
   l1 = 1L;
   L59: {
    if (l8 > -1) { break L59; }
    l11 = (b[((int) l4) - 58911] & 0xff) & 63;
    L60: {
     if (l8 + Integer.MIN_VALUE > 2147483615) { break L60; }
     l10 = ((l10 << 6) & 1984) | l11;
     l1 = 2L;
     break L59;
    }
    l12 = (b[((int) l4) - 58910] & 0xff) & 63;
    L61: {
     if (l8 + Integer.MIN_VALUE > 2147483631) { break L61; }
     l10 = ((l11 << 6) | ((l10 << 12) & 61440)) | l12;
     l1 = 3L;
     break L59;
    }
    l10 = ((l12 << 6) | ((l11 << 12) | ((l10 << 18) & 1835008))) | ((b[((int) l4) - 58909] & 0xff) & 63);
    l1 = 4L;
   }
   if (l3 == (l0 = l1 + l0)) { break L7; }
   l11 = (l8 = (int) b[((int) (l1 = l4 + l1)) - 58912]) & 255;
   l4 = 1L;
   L62: {
    if (l8 > -1) { break L62; }
    l12 = (b[((int) l1) - 58911] & 0xff) & 63;
    L63: {
     if (l8 + Integer.MIN_VALUE > 2147483615) { break L63; }
     l11 = ((l11 << 6) & 1984) | l12;
     l4 = 2L;
     break L62;
    }
    l13 = (b[((int) l1) - 58910] & 0xff) & 63;
    L64: {
     if (l8 + Integer.MIN_VALUE > 2147483631) { break L64; }
     l11 = ((l12 << 6) | ((l11 << 12) & 61440)) | l13;
     l4 = 3L;
     break L62;
    }
    l11 = ((l13 << 6) | ((l12 << 12) | ((l11 << 18) & 1835008))) | ((b[((int) l1) - 58909] & 0xff) & 63);
    l4 = 4L;
   }
   L65: {
    if ((l9 + -48) + Integer.MIN_VALUE < -2147483638) { break L65; }
    if ((l9 + -65296) + Integer.MIN_VALUE > -2147483639) { break L7; }
   }
   L66: {
    if ((l10 + -48) + Integer.MIN_VALUE < -2147483638) { break L66; }
    if ((l10 + -65296) + Integer.MIN_VALUE > -2147483639) { break L7; }
   }
   L67: {
    if ((l11 + -48) + Integer.MIN_VALUE < -2147483638) { break L67; }
    if ((l11 + -65296) + Integer.MIN_VALUE > -2147483639) { break L7; }
   }
   L68: {
    if (l3 != (l4 + l0)) { break L68; }
    return 1;
   }
   l7 = (l8 = (int) b[((int) (l0 = l1 + l4)) - 58912]) & 255;
   L69: {
    if (l8 > -1) { break L69; }
    l9 = (b[((int) l0) - 58911] & 0xff) & 63;
    L70: {
     if (l8 + Integer.MIN_VALUE > 2147483615) { break L70; }
     l7 = ((l7 << 6) & 1984) | l9;
     break L69;
    }
    l10 = (b[((int) l0) - 58910] & 0xff) & 63;
    L71: {
     if (l8 + Integer.MIN_VALUE > 2147483631) { break L71; }
     l7 = ((l9 << 6) | ((l7 << 12) & 61440)) | l10;
     break L69;
    }
    l7 = ((l10 << 6) | ((l9 << 12) | ((l7 << 18) & 1835008))) | ((b[((int) l0) - 58909] & 0xff) & 63);
   }
   l7 = (((l7 + -58) + Integer.MIN_VALUE < 2147483638) & ((l7 + -65306) + Integer.MIN_VALUE < 2147483638)) ? 1 : 0;
  }
  final int t72 = l7;
  return t72;
 }
 throw State.trap();
}

static int f152(State m, int l0, int l1, long l2, long l3) {
 final byte[] b = m.bytes;
 long l4 = 0;
 long l5 = 0;
 int l6 = 0;
 int l7 = 0;
 int l8 = 0;
 int l9 = 0;
 int l10 = 0;
 L1: {
  if ((l4 = m.g0) < 16L) { break L1; }
  L2: {
   L3: {
    L4: {
     if (l3 + Long.MIN_VALUE < -9223372036854775805L) { break L4; }
     if (((l6 = b[((int) l2) - 58912] & 0xff) & 240) != 224) { break L3; }
     final int t5 = b[((int) ((l5 = ((((l9 = (((l7 = b[((int) l2) - 58911] & 0xff) << 8) | ((l8 = b[((int) l2) - 58910] & 0xff) << 16)) | l6) & 0xffffffffL) * 953497L) >>> 22L) & 1016L) + 66857L)) - 58912] & 0xff;
     final int t6 = l10 = (Words.get32(b, State.far((int) l5, 66852)) == l9) ? 1 : 0;
     l9 = t6 != 0 ? t5 : 0;
     final int t7 = b[((int) (l5 + 66856L)) - 58912] & 0xff;
     final int t8 = l10;
     l10 = t8 != 0 ? t7 : 2;
     l7 = ((l8 + (l7 << 6)) + (l6 << 12)) + -925824;
     l3 = l3 + -3L;
     l2 = l2 + 3L;
     break L2;
    }
    L9: {
     if (!(l3 == 0L)) { break L9; }
     m.g0 = l4;
     return 0;
    }
    l6 = b[((int) l2) - 58912] & 0xff;
   }
   l7 = l6 & 255;
   l5 = 1L;
   L10: {
    if (((int) (byte) l6) > -1) { break L10; }
    l9 = (b[((int) l2) - 58911] & 0xff) & 63;
    L11: {
     if ((l6 & 255) + Integer.MIN_VALUE > -2147483425) { break L11; }
     l7 = ((l7 << 6) & 1984) | l9;
     l5 = 2L;
     break L10;
    }
    l10 = (b[((int) l2) - 58910] & 0xff) & 63;
    L12: {
     if ((l6 & 255) + Integer.MIN_VALUE > -2147483409) { break L12; }
     l7 = ((l9 << 6) | ((l7 << 12) & 61440)) | l10;
     l5 = 3L;
     break L10;
    }
    l7 = ((l10 << 6) | ((l9 << 12) | ((l7 << 18) & 1835008))) | ((b[((int) l2) - 58909] & 0xff) & 63);
    l5 = 4L;
   }
   l3 = l3 - l5;
   l2 = l2 + l5;
   L13: {
    if ((l7 + -2048) + Integer.MIN_VALUE > -2147420161) { break L13; }
    final int t14 = b[((int) ((l5 = ((((l6 = (((l7 >>> 12) | ((l7 << 2) & 16128)) | ((l7 << 16) & 4128768)) | 8421600) & 0xffffffffL) * 953497L) >>> 22L) & 1016L) + 66857L)) - 58912] & 0xff;
    final int t15 = l6 = (Words.get32(b, State.far((int) l5, 66852)) == l6) ? 1 : 0;
    l9 = t15 != 0 ? t14 : 0;
    final int t16 = b[((int) (l5 + 66856L)) - 58912] & 0xff;
    final int t17 = l6;
    l10 = t17 != 0 ? t16 : 2;
    break L2;
   }
   final int t18 = l6 = l7 + -48;
   final int t19 = l6 = (l6 + Integer.MIN_VALUE < -2147483638) ? 1 : 0;
   l9 = t19 != 0 ? t18 : 0;
   l10 = l6 != 0 ? 0 : 2;
  }
  L20: {
   if (Core4.f146(m, l0, l1, l7, l10, l9, l2, l3) == 0) { break L20; }
   m.g0 = l4;
   return 1;
  }
  l6 = 0;
  L21: {
   L22: {
    L23: {
     if (l7 > 35999) { break L23; }
     if (l7 == 45) { break L22; }
     if (l7 == 8722) { break L22; }
     break L21;
    }
    if (l7 == 36000) { break L22; }
    if (l7 == 65293) { break L22; }
    if (l7 != 36127) { break L21; }
   }
   l6 = f153(m, l0, l1, l2, l3);
  }
  m.g0 = l4;
  final int t24 = l6;
  return t24;
 }
 throw State.trap();
}

static int f153(State m, int l0, int l1, long l2, long l3) {
 final byte[] b = m.bytes;
 long l4 = 0;
 long l5 = 0;
 int l6 = 0;
 int l7 = 0;
 int l8 = 0;
 int l9 = 0;
 int l10 = 0;
 L1: {
  if ((l4 = m.g0) < 16L) { break L1; }
  L2: {
   L3: {
    L4: {
     if (l3 + Long.MIN_VALUE < -9223372036854775805L) { break L4; }
     if (((l6 = b[((int) l2) - 58912] & 0xff) & 240) != 224) { break L3; }
     final int t5 = b[((int) ((l5 = ((((l9 = (((l7 = b[((int) l2) - 58911] & 0xff) << 8) | ((l8 = b[((int) l2) - 58910] & 0xff) << 16)) | l6) & 0xffffffffL) * 953497L) >>> 22L) & 1016L) + 66857L)) - 58912] & 0xff;
     final int t6 = l10 = (Words.get32(b, State.far((int) l5, 66852)) == l9) ? 1 : 0;
     l9 = t6 != 0 ? t5 : 0;
     final int t7 = b[((int) (l5 + 66856L)) - 58912] & 0xff;
     final int t8 = l10;
     l10 = t8 != 0 ? t7 : 2;
     l7 = ((l8 + (l7 << 6)) + (l6 << 12)) + -925824;
     l3 = l3 + -3L;
     l2 = l2 + 3L;
     break L2;
    }
    L9: {
     if (!(l3 == 0L)) { break L9; }
     m.g0 = l4;
     return 0;
    }
    l6 = b[((int) l2) - 58912] & 0xff;
   }
   l7 = l6 & 255;
   l5 = 1L;
   L10: {
    if (((int) (byte) l6) > -1) { break L10; }
    l9 = (b[((int) l2) - 58911] & 0xff) & 63;
    L11: {
     if ((l6 & 255) + Integer.MIN_VALUE > -2147483425) { break L11; }
     l7 = ((l7 << 6) & 1984) | l9;
     l5 = 2L;
     break L10;
    }
    l10 = (b[((int) l2) - 58910] & 0xff) & 63;
    L12: {
     if ((l6 & 255) + Integer.MIN_VALUE > -2147483409) { break L12; }
     l7 = ((l9 << 6) | ((l7 << 12) & 61440)) | l10;
     l5 = 3L;
     break L10;
    }
    l7 = ((l10 << 6) | ((l9 << 12) | ((l7 << 18) & 1835008))) | ((b[((int) l2) - 58909] & 0xff) & 63);
    l5 = 4L;
   }
   l3 = l3 - l5;
   l2 = l2 + l5;
   L13: {
    if ((l7 + -2048) + Integer.MIN_VALUE > -2147420161) { break L13; }
    final int t14 = b[((int) ((l5 = ((((l6 = (((l7 >>> 12) | ((l7 << 2) & 16128)) | ((l7 << 16) & 4128768)) | 8421600) & 0xffffffffL) * 953497L) >>> 22L) & 1016L) + 66857L)) - 58912] & 0xff;
    final int t15 = l6 = (Words.get32(b, State.far((int) l5, 66852)) == l6) ? 1 : 0;
    l9 = t15 != 0 ? t14 : 0;
    final int t16 = b[((int) (l5 + 66856L)) - 58912] & 0xff;
    final int t17 = l6;
    l10 = t17 != 0 ? t16 : 2;
    break L2;
   }
   final int t18 = l6 = l7 + -48;
   final int t19 = l6 = (l6 + Integer.MIN_VALUE < -2147483638) ? 1 : 0;
   l9 = t19 != 0 ? t18 : 0;
   l10 = l6 != 0 ? 0 : 2;
  }
  l7 = Core4.f146(m, l0, l1, l7, l10, l9, l2, l3);
  m.g0 = l4;
  final int t20 = l7;
  return t20;
 }
 throw State.trap();
}

static int f154(State m, int l0, int l1, long l2, long l3) {
 final byte[] b = m.bytes;
 long l4 = 0;
 long l5 = 0;
 long l6 = 0;
 int l7 = 0;
 int l8 = 0;
 int l9 = 0;
 L1: {
  if ((l4 = m.g0) < 16L) { break L1; }
  l7 = 0;
  L2: {
   if (f150(m, l0, l1, l2, l3) != 0) { break L2; }
   l7 = 1;
   if (l3 == 0L) { break L2; }
   L3: {
    if ((l1 = (int) b[((int) ((l5 = l2 + l3) + -1L)) - 58912]) >= 0) { break L3; }
    l6 = -2L;
    L4: {
     if ((b[((int) (l5 + -2L)) - 58912] & 0xff) + Integer.MIN_VALUE > -2147483457) { break L4; }
     l6 = ((b[((int) (l5 + -3L)) - 58912] & 0xff) + Integer.MIN_VALUE > -2147483457) ? -3L : -4L;
    }
    l1 = (l0 = (int) b[((int) (l3 = (l2 + l6) + l3)) - 58912]) & 255;
    if (l0 > -1) { break L3; }
    l8 = (b[((int) l3) - 58911] & 0xff) & 63;
    L5: {
     if (l0 + Integer.MIN_VALUE > 2147483615) { break L5; }
     l1 = ((l1 << 6) & 1984) | l8;
     break L3;
    }
    l9 = (b[((int) l3) - 58910] & 0xff) & 63;
    L6: {
     if (l0 + Integer.MIN_VALUE > 2147483631) { break L6; }
     l1 = ((l8 << 6) | ((l1 << 12) & 61440)) | l9;
     break L3;
    }
    l1 = ((l9 << 6) | ((l8 << 12) | ((l1 << 18) & 1835008))) | ((b[((int) l3) - 58909] & 0xff) & 63);
   }
   L7: {
    if (((l1 & -33) + -65) + Integer.MIN_VALUE < -2147483622) { break L7; }
    L8: {
     L9: {
      if (l1 > 8239) { break L9; }
      L10: {
       switch (l1 + -37) {
       case 0: case 4: break L7;
       case 1: case 2: case 3: break L8;
       default: break L10;
       }
      }
      if (l1 == 95) { break L7; }
      if (l1 != 125) { break L8; }
      break L7;
     }
     if (l1 == 8240) { break L7; }
     if (l1 == 8722) { break L7; }
     if (l1 == 65285) { break L7; }
    }
    if (l1 + Integer.MIN_VALUE < -2147483603) { break L2; }
    if (l1 + Integer.MIN_VALUE < -2147483600) { break L7; }
    if (l1 + Integer.MIN_VALUE < -2147483556) { break L2; }
    if (l1 + Integer.MIN_VALUE < -2147483554) { break L7; }
    if ((l1 + -65293) + Integer.MIN_VALUE > -2147483647) { break L2; }
   }
   l7 = 0;
  }
  m.g0 = l4;
  final int t11 = l7;
  return t11;
 }
 throw State.trap();
}

static void f155(State m, long l0, int l1, long l2, long l3) {
 final byte[] b = m.bytes;
 long l4 = 0;
 long l5 = 0;
 int l6 = 0;
 int l7 = 0;
 int l8 = 0;
 m.g0 = l4 = m.g0 - 32L;
 L1: {
  if ((l4 = l4) < 16L) { break L1; }
  l5 = 0L;
  Words.put64(b, ((int) l4) - 58888, 0L);
  Words.put64(b, ((int) l4) - 58896, 0L);
  Words.put64(b, ((int) l4) - 58904, 0L);
  L2: {
   L3: {
    L4: {
     L5: {
      switch ((int) ((l1 & 0xffffffffL) & 255L)) {
      case 1: break L4;
      case 2: break L3;
      default: break L5;
      }
     }
     L6: {
      L7: {
       if (!(l3 == 0L)) { break L7; }
       l3 = 1L;
       break L6;
      }
      l1 = (l6 = (int) b[((int) l2) - 58912]) & 255;
      L8: {
       if (l6 > -1) { break L8; }
       l7 = (b[((int) l2) - 58911] & 0xff) & 63;
       L9: {
        if (l6 + Integer.MIN_VALUE > 2147483615) { break L9; }
        l1 = ((l1 << 6) & 1984) | l7;
        break L8;
       }
       l8 = (b[((int) l2) - 58910] & 0xff) & 63;
       L10: {
        if (l6 + Integer.MIN_VALUE > 2147483631) { break L10; }
        l1 = ((l7 << 6) | ((l1 << 12) & 61440)) | l8;
        break L8;
       }
       l1 = ((l8 << 6) | ((l7 << 12) | ((l1 << 18) & 1835008))) | ((b[((int) l2) - 58909] & 0xff) & 63);
      }
      l2 = ((l1 = (l1 != 32) ? 1 : 0) != 0) ? l2 : 0L;
      l5 = l1 != 0 ? l3 : 0L;
      l3 = l1 & 0xffffffffL;
     }
     Words.put64(b, ((int) l4) - 58888, l5);
     Words.put64(b, ((int) l4) - 58896, l2);
     Words.put64(b, ((int) l4) - 58904, l3);
     break L2;
    }
    Core4.f134(m, l4 + 8L, 21, l2, l3);
    break L2;
   }
   Core4.f134(m, l4 + 8L, 22, l2, l3);
  }
  Words.put64(b, ((int) l0) - 58912, b[((int) l4) - 58904] & 0xffL);
  Words.put64(b, ((int) (l0 + 8L)) - 58912, Words.get64(b, ((int) l4) - 58896));
  Words.put64(b, ((int) (l0 + 16L)) - 58912, Words.get64(b, ((int) l4) - 58888));
  m.g0 = l4 + 32L;
  return;
 }
 throw State.trap();
}

static int f156_1(State m, long l0, int l1, int l2, long l3, long l4, long l5, long l6, long l7, long l8, long l9, long l10, int l12, int l13, int l14, int l15, int l16, int l17, int l18, int l19, int l20) {
 final byte[] b = m.bytes;
 int exit = 0;
 PART: {
  L23: {
   L24: {
    L25: {
     switch ((int) ((l1 & 0xffffffffL) & 255L)) {
     case 1: break L24;
     case 2: break L23;
     case 3: exit = 1; break PART;
     default: break L25;
     }
    }
    Core4.f132(m, l4 + 152L, l12 & 1, l6, l5);
    l9 = Words.get64(b, ((int) l4) - 58752);
    l7 = Words.get64(b, ((int) l4) - 58760);
    Words.put64(b, ((int) l4) - 58680, 0L);
    Words.put64(b, ((int) l4) - 58688, 0L);
    Words.put64(b, ((int) l4) - 58696, 0L);
    Words.put64(b, ((int) l4) - 58704, 0L);
    Core4.f131(m, l4 + 208L, l7, l9);
    l5 = Words.get64(b, ((int) l4) - 58704);
    L26: {
     if ((l19 = ((l10 = Words.get64(b, ((int) l4) - 58696)) == 0L) ? 1 : 0) != 0) { break L26; }
     L27: {
      L28: {
       if ((l18 = (int) b[((int) l5) - 58912]) <= -1) { break L28; }
       l3 = 1L;
       break L27;
      }
      L29: {
       if (l18 + Integer.MIN_VALUE >= 2147483616) { break L29; }
       l3 = 2L;
       break L27;
      }
      l3 = (l18 + Integer.MIN_VALUE < 2147483632) ? 3L : 4L;
     }
     l6 = l10 - l3;
     l3 = l5 + l3;
     L30: while (true) {
      if (l6 == 0L) { break L26; }
      l18 = (l12 = (int) b[((int) l3) - 58912]) & 255;
      l8 = 1L;
      L31: {
       if (l12 > -1) { break L31; }
       l20 = (b[((int) l3) - 58911] & 0xff) & 63;
       L32: {
        if (l12 + Integer.MIN_VALUE > 2147483615) { break L32; }
        l18 = ((l18 << 6) & 1984) | l20;
        l8 = 2L;
        break L31;
       }
       l17 = (b[((int) l3) - 58910] & 0xff) & 63;
       L33: {
        if (l12 + Integer.MIN_VALUE > 2147483631) { break L33; }
        l18 = ((l20 << 6) | ((l18 << 12) & 61440)) | l17;
        l8 = 3L;
        break L31;
       }
       l18 = ((l17 << 6) | ((l20 << 12) | ((l18 << 18) & 1835008))) | ((b[((int) l3) - 58909] & 0xff) & 63);
       l8 = 4L;
      }
      if (l18 == 20004) { exit = 2; break PART; }
      l6 = l6 - l8;
      l3 = l3 + l8;
      if (l18 != 20841) { continue L30; }
      exit = 2; break PART;
     }
    }
    L34: {
     L35: {
      L36: {
       L37: {
        L38: {
         L39: {
          L40: {
           L41: {
            L42: {
             L43: {
              L44: {
               L45: {
                switch ((int) ((l2 & 0xffffffffL) & 255L)) {
                case 1: break L44;
                case 2: break L43;
                case 3: break L42;
                case 4: break L41;
                case 5: break L40;
                case 6: break L39;
                case 7: break L38;
                case 8: case 9: break L37;
                case 10: break L36;
                case 11: break L35;
                case 12: break L34;
                default: break L45;
                }
               }
               f162(m, l4 + 8L, l5, l10);
               l18 = Words.get16(b, ((int) l4) - 58902) & 0xffff;
               l12 = b[((int) l4) - 58904] & 0xff;
               exit = 3; break PART;
              }
              f163(m, l4 + 16L, l5, l10);
              l18 = Words.get16(b, ((int) l4) - 58894) & 0xffff;
              l12 = b[((int) l4) - 58896] & 0xff;
              exit = 3; break PART;
             }
             f163(m, l4 + 32L, l5, l10);
             l12 = 1;
             L46: {
              if ((b[((int) l4) - 58880] & 0xff) != 1) { break L46; }
              l18 = Words.get16(b, ((int) l4) - 58878) & 0xffff;
              exit = 3; break PART;
             }
             f164(m, l4 + 24L, l5, l10);
             l18 = Words.get16(b, ((int) l4) - 58886) & 0xffff;
             l12 = b[((int) l4) - 58888] & 0xff;
             exit = 3; break PART;
            }
            f165(m, l4 + 40L, l5, l10);
            final int t47 = b[((int) l4) - 58871] & 0xff;
            final int t48 = l12 = (b[((int) l4) - 58872] & 0xff) & 1;
            l18 = t48 != 0 ? t47 : 0;
            exit = 3; break PART;
           }
           f165(m, l4 + 56L, l5, l10);
           l12 = 1;
           L49: {
            L50: {
             if ((b[((int) l4) - 58856] & 0xff) != 1) { break L50; }
             l18 = (b[((int) l4) - 58855] & 0xff) & 255;
             break L49;
            }
            f166(m, l4 + 48L, l5, l10);
            final int t51 = (b[((int) l4) - 58863] & 0xff) & 255;
            final int t52 = (l12 = b[((int) l4) - 58864] & 0xff) & 1;
            l18 = t52 != 0 ? t51 : 0;
            l12 = l12;
           }
           l12 = l12 & 1;
           exit = 3; break PART;
          }
          L53: {
           L54: {
            if (l19 == 0) { break L54; }
            l12 = 0;
            l18 = 0;
            break L53;
           }
           L55: {
            L56: {
             if ((l18 = (int) b[((int) l5) - 58912]) <= -1) { break L56; }
             l3 = 1L;
             break L55;
            }
            L57: {
             if (l18 + Integer.MIN_VALUE >= 2147483616) { break L57; }
             l3 = 2L;
             break L55;
            }
            l3 = (l18 + Integer.MIN_VALUE < 2147483632) ? 3L : 4L;
           }
           l12 = 0;
           l18 = 0;
           if (l10 == l3) { break L53; }
           f165(m, l4 + 64L, l5, l10);
           final int t58 = (b[((int) l4) - 58847] & 0xff) & 255;
           final int t59 = (l12 = b[((int) l4) - 58848] & 0xff) & 1;
           l18 = t59 != 0 ? t58 : 0;
          }
          l12 = l12 & 1;
          exit = 3; break PART;
         }
         f166(m, l4 + 72L, l5, l10);
         final int t60 = b[((int) l4) - 58839] & 0xff;
         final int t61 = l12 = (b[((int) l4) - 58840] & 0xff) & 1;
         l18 = t61 != 0 ? t60 : 0;
         exit = 3; break PART;
        }
        f164(m, l4 + 80L, l5, l10);
        l18 = Words.get16(b, ((int) l4) - 58830) & 0xffff;
        l12 = b[((int) l4) - 58832] & 0xff;
        exit = 3; break PART;
       }
       L62: {
        if (l19 == 0) { break L62; }
        l12 = 0;
        l18 = 0;
        exit = 4; break PART;
       }
       l20 = (l18 = (int) b[((int) l5) - 58912]) & 255;
       l3 = 1L;
       L63: {
        if (l18 > -1) { break L63; }
        l12 = (b[((int) l5) - 58911] & 0xff) & 63;
        L64: {
         if (l18 + Integer.MIN_VALUE > 2147483615) { break L64; }
         l20 = ((l20 << 6) & 1984) | l12;
         l3 = 2L;
         break L63;
        }
        l17 = (b[((int) l5) - 58910] & 0xff) & 63;
        L65: {
         if (l18 + Integer.MIN_VALUE > 2147483631) { break L65; }
         l20 = ((l12 << 6) | ((l20 << 12) & 61440)) | l17;
         l3 = 3L;
         break L63;
        }
        l20 = ((l17 << 6) | ((l12 << 12) | ((l20 << 18) & 1835008))) | ((b[((int) l5) - 58909] & 0xff) & 63);
        l3 = 4L;
       }
       l12 = 0;
       l18 = 0;
       if (l10 != l3) { exit = 4; break PART; }
       Core1.f24(m, l4 + 96L, l20);
       l12 = 1;
       L66: {
        if ((b[((int) l4) - 58816] & 0xff) != 1) { break L66; }
        l18 = (b[((int) l4) - 58815] & 0xff) & 255;
        exit = 4; break PART;
       }
       l18 = 0;
       l12 = 0;
       L67: {
        if (l20 > 20107) { break L67; }
        if ((l17 = l20 + -19968) + Integer.MIN_VALUE <= -2147483612) { exit = 5; break PART; }
        exit = 6; break PART;
       }
       L68: {
        if (l20 > 22234) { break L68; }
        if ((l17 = l20 + -20841) + Integer.MIN_VALUE > -2147483644) { exit = 7; break PART; }
        if (((1 << l17) & 21) == 0) { exit = 7; break PART; }
        exit = 8; break PART;
       }
       if (l20 == 38646) { exit = 8; break PART; }
       if (l20 != 22235) { exit = 4; break PART; }
       exit = 8; break PART;
      }
      f167(m, l4 + 120L, l5, l10);
      l12 = 1;
      L69: {
       if ((b[((int) l4) - 58792] & 0xff) != 1) { break L69; }
       l18 = (b[((int) l4) - 58791] & 0xff) & 255;
       exit = 9; break PART;
      }
      L70: {
       if (l19 == 0) { break L70; }
       l18 = 0;
       l12 = 0;
       exit = 9; break PART;
      }
      l20 = (l18 = (int) b[((int) l5) - 58912]) & 255;
      l3 = 1L;
      L71: {
       if (l18 > -1) { break L71; }
       l12 = (b[((int) l5) - 58911] & 0xff) & 63;
       L72: {
        if (l18 + Integer.MIN_VALUE > 2147483615) { break L72; }
        l20 = ((l20 << 6) & 1984) | l12;
        l3 = 2L;
        break L71;
       }
       l17 = (b[((int) l5) - 58910] & 0xff) & 63;
       L73: {
        if (l18 + Integer.MIN_VALUE > 2147483631) { break L73; }
        l20 = ((l12 << 6) | ((l20 << 12) & 61440)) | l17;
        l3 = 3L;
        break L71;
       }
       l20 = ((l17 << 6) | ((l12 << 12) | ((l20 << 18) & 1835008))) | ((b[((int) l5) - 58909] & 0xff) & 63);
       l3 = 4L;
      }
      l12 = 0;
      l18 = 0;
      if (l10 == l3) { exit = 9; break PART; }
      l17 = (l18 = (int) b[((int) (l6 = l5 + l3)) - 58912]) & 255;
      l8 = 1L;
      L74: {
       if (l18 > -1) { break L74; }
       l12 = (b[((int) l6) - 58911] & 0xff) & 63;
       L75: {
        if (l18 + Integer.MIN_VALUE > 2147483615) { break L75; }
        l17 = ((l17 << 6) & 1984) | l12;
        l8 = 2L;
        break L74;
       }
       l19 = (b[((int) l6) - 58910] & 0xff) & 63;
       L76: {
        if (l18 + Integer.MIN_VALUE > 2147483631) { break L76; }
        l17 = ((l12 << 6) | ((l17 << 12) & 61440)) | l19;
        l8 = 3L;
        break L74;
       }
       l17 = ((l19 << 6) | ((l12 << 12) | ((l17 << 18) & 1835008))) | ((b[((int) l6) - 58909] & 0xff) & 63);
       l8 = 4L;
      }
      l12 = 0;
      l18 = 0;
      if (l10 != (l8 + l3)) { exit = 9; break PART; }
      l19 = 0;
      L77: {
       if (l20 > 20107) { break L77; }
       if ((l18 = l20 + -19968) + Integer.MIN_VALUE <= -2147483612) { exit = 10; break PART; }
       exit = 11; break PART;
      }
      L78: {
       if (l20 > 22234) { break L78; }
       if ((l18 = l20 + -20841) + Integer.MIN_VALUE > -2147483644) { exit = 12; break PART; }
       if (((1 << l18) & 21) == 0) { exit = 12; break PART; }
       exit = 13; break PART;
      }
      if (l20 == 38646) { exit = 13; break PART; }
      l16 = 0;
      if (l20 != 22235) { exit = 14; break PART; }
      exit = 13; break PART;
     }
     f167(m, l4 + 128L, l5, l10);
     final int t79 = b[((int) l4) - 58783] & 0xff;
     final int t80 = l12 = (b[((int) l4) - 58784] & 0xff) & 1;
     l18 = t80 != 0 ? t79 : 0;
     exit = 3; break PART;
    }
    L81: {
     L82: {
      if (l19 == 0) { break L82; }
      l12 = 0;
      l18 = 0;
      break L81;
     }
     l12 = (l18 = (int) b[((int) l5) - 58912]) & 255;
     l3 = 1L;
     L83: {
      if (l18 > -1) { break L83; }
      l20 = (b[((int) l5) - 58911] & 0xff) & 63;
      L84: {
       if (l18 + Integer.MIN_VALUE > 2147483615) { break L84; }
       l12 = ((l12 << 6) & 1984) | l20;
       l3 = 2L;
       break L83;
      }
      l17 = (b[((int) l5) - 58910] & 0xff) & 63;
      L85: {
       if (l18 + Integer.MIN_VALUE > 2147483631) { break L85; }
       l12 = ((l20 << 6) | ((l12 << 12) & 61440)) | l17;
       l3 = 3L;
       break L83;
      }
      l12 = ((l17 << 6) | ((l20 << 12) | ((l12 << 18) & 1835008))) | ((b[((int) l5) - 58909] & 0xff) & 63);
      l3 = 4L;
     }
     L86: {
      L87: {
       if (l10 == l3) { break L87; }
       f167(m, l4 + 144L, l5, l10);
       l18 = b[((int) l4) - 58767] & 0xff;
       l12 = b[((int) l4) - 58768] & 0xff;
       break L86;
      }
      Core1.f24(m, l4 + 136L, l12);
      l18 = b[((int) l4) - 58775] & 0xff;
      l12 = b[((int) l4) - 58776] & 0xff;
     }
     final int t88 = l18 & 255;
     final int t89 = l12 & 1;
     l18 = t89 != 0 ? t88 : 0;
    }
    l12 = l12 & 1;
    exit = 3; break PART;
   }
   Core4.f132(m, l4 + 168L, l12 & 1, l6, l5);
   Core4.f134(m, l4 + 184L, l2, Words.get64(b, ((int) l4) - 58744), Words.get64(b, ((int) l4) - 58736));
   L90: {
    if ((b[((int) l4) - 58728] & 0xff) != 1) { break L90; }
    l19 = 0;
    l3 = Words.get64(b, ((int) l4) - 58712);
    l8 = Words.get64(b, ((int) l4) - 58720);
    l16 = l15;
    l17 = l14;
    l18 = l13;
    l20 = 0;
    exit = 1; break PART;
   }
   Words.put64(b, ((int) l0) - 58888, 0L);
   Words.put64(b, ((int) l0) - 58896, 0L);
   Words.put64(b, ((int) l0) - 58904, 0L);
   Words.put64(b, ((int) l0) - 58912, 0L);
   exit = 15; break PART;
  }
 }
 m.kept[0] = l3;
 m.kept[1] = l5;
 m.kept[2] = l6;
 m.kept[3] = l7;
 m.kept[4] = l8;
 m.kept[5] = l9;
 m.kept[6] = l10;
 m.kept[7] = l12;
 m.kept[8] = l16;
 m.kept[9] = l17;
 m.kept[10] = l18;
 m.kept[11] = l19;
 m.kept[12] = l20;
 return exit;
}

static void f156(State m, long l0, int l1, int l2, long l3) {
 final byte[] b = m.bytes;
 long l4 = 0;
 long l5 = 0;
 long l6 = 0;
 long l7 = 0;
 long l8 = 0;
 long l9 = 0;
 long l10 = 0;
 int l11 = 0;
 int l12 = 0;
 int l13 = 0;
 int l14 = 0;
 int l15 = 0;
 int l16 = 0;
 int l17 = 0;
 int l18 = 0;
 int l19 = 0;
 int l20 = 0;
 m.g0 = l4 = m.g0 - 240L;
 L1: {
  L2: {
   L3: {
    L4: {
     L5: {
      L6: {
       L7: {
        L8: {
         L9: {
          L10: {
           L11: {
            L12: {
             L13: {
              L14: {
               L15: {
                L16: {
                 L17: {
                  L18: {
                   L19: {
                    L20: {
                     L21: {
                      L22: {
                       if ((l4 = l4) < 16L) { break L22; }
                       l5 = Words.get64(b, ((int) l3) - 58896);
                       l6 = Words.get64(b, ((int) l3) - 58904);
                       l11 = b[((int) l3) - 58905] & 0xff;
                       l12 = b[((int) l3) - 58906] & 0xff;
                       l13 = Words.get16(b, ((int) l3) - 58908) & 0xffff;
                       l14 = Words.get16(b, ((int) l3) - 58910) & 0xffff;
                       l15 = Words.get16(b, ((int) l3) - 58912) & 0xffff;
                       Words.put64(b, ((int) l4) - 58712, 0L);
                       Words.put64(b, ((int) l4) - 58720, 0L);
                       Words.put64(b, ((int) l4) - 58728, 0L);
                       l7 = 1L;
                       l16 = l15;
                       l17 = l14;
                       l18 = l13;
                       l19 = l12;
                       l20 = l11;
                       l8 = l6;
                       l3 = l5;
                       final int x91 = f156_1(m, l0, l1, l2, l3, l4, l5, l6, l7, l8, l9, l10, l12, l13, l14, l15, l16, l17, l18, l19, l20);
                       l3 = m.kept[0];
                       l5 = m.kept[1];
                       l6 = m.kept[2];
                       l7 = m.kept[3];
                       l8 = m.kept[4];
                       l9 = m.kept[5];
                       l10 = m.kept[6];
                       l12 = (int) m.kept[7];
                       l16 = (int) m.kept[8];
                       l17 = (int) m.kept[9];
                       l18 = (int) m.kept[10];
                       l19 = (int) m.kept[11];
                       l20 = (int) m.kept[12];
                       switch (x91) {
                       case 1: break L2;
                       case 2: break L3;
                       case 3: break L4;
                       case 4: break L5;
                       case 5: break L21;
                       case 6: break L7;
                       case 7: break L8;
                       case 8: break L6;
                       case 9: break L9;
                       case 10: break L20;
                       case 11: break L12;
                       case 12: break L13;
                       case 13: break L11;
                       case 14: break L10;
                       case 15: break L1;
                       }
                       if (l5 == 0L) { break L16; }
                       l18 = (l20 = (int) b[((int) l6) - 58912]) & 255;
                       l7 = 1L;
                       L92: {
                        if (l20 > -1) { break L92; }
                        l17 = (b[((int) l6) - 58911] & 0xff) & 63;
                        L93: {
                         if (l20 + Integer.MIN_VALUE > 2147483615) { break L93; }
                         l18 = ((l18 << 6) & 1984) | l17;
                         l7 = 2L;
                         break L92;
                        }
                        l19 = (b[((int) l6) - 58910] & 0xff) & 63;
                        L94: {
                         if (l20 + Integer.MIN_VALUE > 2147483631) { break L94; }
                         l18 = ((l17 << 6) | ((l18 << 12) & 61440)) | l19;
                         l7 = 3L;
                         break L92;
                        }
                        l18 = ((l19 << 6) | ((l17 << 12) | ((l18 << 18) & 1835008))) | ((b[((int) l6) - 58909] & 0xff) & 63);
                        l7 = 4L;
                       }
                       l9 = l6 + l7;
                       l3 = Words.get64(b, State.far((int) (l8 = ((l2 & 0xffffffffL) & 255L) << 3L), 102128));
                       l8 = Words.get64(b, State.far((int) l8, 102040));
                       L95: while (true) {
                        if (Words.get32(b, ((int) l3) - 58912) == l18) { break L15; }
                        l3 = l3 + 4L;
                        if ((l8 = l8 + -1L) != 0L) { continue L95; }
                        break L95;
                       }
                       L96: {
                        L97: {
                         L98: {
                          switch ((l2 & 255) + -4) {
                          case 0: break L98;
                          case 6: break L97;
                          default: break L16;
                          }
                         }
                         if (l5 == l7) { break L16; }
                         if (l18 != 20043) { break L16; }
                         l1 = (l18 = (int) b[((int) l9) - 58912]) & 255;
                         L99: {
                          if (l18 > -1) { break L99; }
                          l20 = (b[((int) l9) - 58911] & 0xff) & 63;
                          L100: {
                           if (l18 + Integer.MIN_VALUE > 2147483615) { break L100; }
                           l1 = ((l1 << 6) & 1984) | l20;
                           break L99;
                          }
                          l17 = (b[((int) l9) - 58910] & 0xff) & 63;
                          L101: {
                           if (l18 + Integer.MIN_VALUE > 2147483631) { break L101; }
                           l1 = ((l20 << 6) | ((l1 << 12) & 61440)) | l17;
                           break L99;
                          }
                          l1 = ((l17 << 6) | ((l20 << 12) | ((l1 << 18) & 1835008))) | ((b[((int) l9) - 58909] & 0xff) & 63);
                         }
                         l7 = 0L;
                         l16 = 0;
                         if ((l1 + -48) + Integer.MIN_VALUE < -2147483638) { break L14; }
                         l17 = 0;
                         l18 = 0;
                         l19 = 0;
                         l20 = 0;
                         l8 = 0L;
                         l3 = 0L;
                         if ((l1 + -65296) + Integer.MIN_VALUE < -2147483638) { break L2; }
                         l8 = 0L;
                         l19 = 0;
                         l16 = 0;
                         l7 = 0L;
                         L102: {
                          if (l1 > 20840) { break L102; }
                          L103: {
                           if (l1 > 20060) { break L103; }
                           if ((l18 = l1 + -19968) + Integer.MIN_VALUE > -2147483612) { break L17; }
                           if (((1L << (l18 & 0xffffffffL)) & 68719477257L) == 0L) { break L17; }
                           break L18;
                          }
                          l17 = 0;
                          l18 = 0;
                          l20 = 0;
                          l3 = 0L;
                          switch (l1 + -20108) {
                          case 0: case 8: break L2;
                          case 1: case 2: case 3: case 4: case 5: case 6: case 7: break L16;
                          default: break L96;
                          }
                         }
                         L104: {
                          if (l1 > 21312) { break L104; }
                          if ((l18 = l1 + -20841) + Integer.MIN_VALUE > -2147483644) { break L19; }
                          if (((1 << l18) & 21) != 0) { break L18; }
                          break L19;
                         }
                         L105: {
                          if (l1 > 24189) { break L105; }
                          if (l1 == 21313) { break L18; }
                          l17 = 0;
                          l18 = 0;
                          l20 = 0;
                          l3 = 0L;
                          if (l1 != 22235) { break L16; }
                          break L2;
                         }
                         if (l1 == 24190) { break L18; }
                         if (l1 == 30334) { break L18; }
                         l17 = 0;
                         l18 = 0;
                         l20 = 0;
                         l3 = 0L;
                         if (l1 != 38646) { break L16; }
                         break L2;
                        }
                        if (((l18 & 2097119) + -65) + Integer.MIN_VALUE < -2147483622) { break L15; }
                        break L16;
                       }
                       l17 = 0;
                       l18 = 0;
                       l20 = 0;
                       l3 = 0L;
                       if (l1 == 20061) { break L2; }
                       break L16;
                      }
                      throw State.trap();
                     }
                     if (((1L << (l17 & 0xffffffffL)) & 68719477257L) == 0L) { break L7; }
                     break L6;
                    }
                    if (((1L << (l18 & 0xffffffffL)) & 68719477257L) == 0L) { break L12; }
                    break L11;
                   }
                   l17 = 0;
                   l18 = 0;
                   l20 = 0;
                   l3 = 0L;
                   if (l1 != 20960) { break L16; }
                   break L2;
                  }
                  l17 = 0;
                  l18 = 0;
                  l20 = 0;
                  l3 = 0L;
                  break L2;
                 }
                 l17 = 0;
                 l18 = 0;
                 l20 = 0;
                 l3 = 0L;
                 if (l1 == 12295) { break L2; }
                }
                l7 = 1L;
                l16 = l15;
                l17 = l14;
                l18 = l13;
                l19 = l12;
                l20 = l11;
                l8 = l6;
                l3 = l5;
                break L2;
               }
               l7 = 0L;
               l16 = 0;
              }
              l17 = 0;
              l18 = 0;
              l19 = 0;
              l20 = 0;
              l8 = 0L;
              l3 = 0L;
              break L2;
             }
             l16 = 0;
             switch (l20 + -20108) {
             case 0: case 8: break L11;
             default: break L10;
             }
            }
            if (l20 == 12295) { break L11; }
            l16 = 0;
            if (l20 != 20061) { break L10; }
           }
           Core2.f63(m, l4 + 112L, l20);
           l16 = (b[((int) l4) - 58799] & 0xff) * 10;
           l19 = b[((int) l4) - 58800] & 0xff;
          }
          l12 = 0;
          L106: {
           L107: {
            L108: {
             L109: {
              L110: {
               if (l17 > 20107) { break L110; }
               if ((l18 = l17 + -19968) + Integer.MIN_VALUE <= -2147483612) { break L109; }
               break L107;
              }
              L111: {
               if (l17 > 22234) { break L111; }
               if ((l18 = l17 + -20841) + Integer.MIN_VALUE > -2147483644) { break L108; }
               if (((1 << l18) & 21) == 0) { break L108; }
               break L106;
              }
              if (l17 == 38646) { break L106; }
              l18 = 0;
              if (l17 != 22235) { break L9; }
              break L106;
             }
             if (((1L << (l18 & 0xffffffffL)) & 68719477257L) == 0L) { break L107; }
             break L106;
            }
            l18 = 0;
            switch (l17 + -20108) {
            case 0: case 8: break L106;
            default: break L9;
            }
           }
           if (l17 == 12295) { break L106; }
           l18 = 0;
           if (l17 != 20061) { break L9; }
          }
          Core2.f63(m, l4 + 104L, l17);
          final int t112 = (b[((int) l4) - 58807] & 0xff) + l16;
          final int t113 = (l12 = (b[((int) l4) - 58808] & 0xff) & l19) & 255;
          final int t114 = (t113 != 0 ? t112 : 0) & 255;
          final int t115 = l12 & 1;
          l18 = t115 != 0 ? t114 : 0;
         }
         l12 = l12 & 1;
         break L4;
        }
        switch (l20 + -20108) {
        case 0: case 8: break L6;
        default: break L5;
        }
       }
       if (l20 == 12295) { break L6; }
       if (l20 != 20061) { break L5; }
      }
      Core2.f63(m, l4 + 88L, l20);
      final int t116 = (b[((int) l4) - 58823] & 0xff) & 255;
      final int t117 = (l12 = b[((int) l4) - 58824] & 0xff) & 1;
      l18 = t117 != 0 ? t116 : 0;
     }
     l12 = l12 & 1;
    }
    if ((l12 & 1) == 0) { break L3; }
    L118: {
     L119: {
      if (!(l9 == 0L)) { break L119; }
      l19 = 0;
      break L118;
     }
     l12 = (l20 = (int) b[((int) l7) - 58912]) & 255;
     L120: {
      if (l20 > -1) { break L120; }
      l17 = (b[((int) l7) - 58911] & 0xff) & 63;
      L121: {
       if (l20 + Integer.MIN_VALUE > 2147483615) { break L121; }
       l12 = ((l12 << 6) & 1984) | l17;
       break L120;
      }
      l19 = (b[((int) l7) - 58910] & 0xff) & 63;
      L122: {
       if (l20 + Integer.MIN_VALUE > 2147483631) { break L122; }
       l12 = ((l17 << 6) | ((l12 << 12) & 61440)) | l19;
       break L120;
      }
      l12 = ((l19 << 6) | ((l17 << 12) | ((l12 << 18) & 1835008))) | ((b[((int) l7) - 58909] & 0xff) & 63);
     }
     l19 = (((l12 + -48) + Integer.MIN_VALUE < -2147483638) | ((l12 + -65296) + Integer.MIN_VALUE < -2147483638)) ? 1 : 0;
    }
    l7 = 1L;
    l3 = Words.get64(b, ((int) l4) - 58680);
    l8 = Words.get64(b, ((int) l4) - 58688);
    l16 = l14;
    l17 = l13;
    l20 = 0;
    break L2;
   }
   l7 = 0L;
   l16 = 0;
   l17 = 0;
   l18 = 0;
   l19 = 0;
   l8 = 0L;
   l3 = 0L;
   l20 = 0;
  }
  Words.put64(b, ((int) l0) - 58912, l7);
  Words.put64(b, ((int) (l0 + 24L)) - 58912, l3);
  Words.put64(b, ((int) (l0 + 16L)) - 58912, l8);
  b[((int) (l0 + 15L)) - 58912] = (byte) l20;
  b[((int) (l0 + 14L)) - 58912] = (byte) l19;
  Words.put16(b, ((int) (l0 + 12L)) - 58912, (short) l18);
  Words.put16(b, ((int) (l0 + 10L)) - 58912, (short) l17);
  Words.put16(b, ((int) (l0 + 8L)) - 58912, (short) l16);
 }
 m.g0 = l4 + 240L;
}

static int f157(State m, long l0, long l1, long l2, long l3, long l4, long l5) {
 final byte[] b = m.bytes;
 int l6 = 0;
 int l7 = 0;
 int l8 = 0;
 int l9 = 0;
 int l10 = 0;
 int l11 = 0;
 long l12 = 0;
 L1: {
  if (m.g0 < 16L) { break L1; }
  l6 = 0;
  L2: {
   if (l5 == 0L) { break L2; }
   l8 = (l7 = (int) b[((int) l4) - 58912]) & 255;
   l12 = 1L;
   L3: {
    if (l7 > -1) { break L3; }
    l9 = (b[((int) l4) - 58911] & 0xff) & 63;
    L4: {
     if (l7 + Integer.MIN_VALUE > 2147483615) { break L4; }
     l8 = ((l8 << 6) & 1984) | l9;
     l12 = 2L;
     break L3;
    }
    l10 = (b[((int) l4) - 58910] & 0xff) & 63;
    L5: {
     if (l7 + Integer.MIN_VALUE > 2147483631) { break L5; }
     l8 = ((l9 << 6) | ((l8 << 12) & 61440)) | l10;
     l12 = 3L;
     break L3;
    }
    l8 = ((l10 << 6) | ((l9 << 12) | ((l8 << 18) & 1835008))) | ((b[((int) l4) - 58909] & 0xff) & 63);
    l12 = 4L;
   }
   if (l5 == l12) { break L2; }
   l7 = (l9 = (int) b[((int) (l5 = l4 + l12)) - 58912]) & 255;
   L6: {
    if (l9 > -1) { break L6; }
    l10 = (b[((int) l5) - 58911] & 0xff) & 63;
    L7: {
     if (l9 + Integer.MIN_VALUE > 2147483615) { break L7; }
     l7 = ((l7 << 6) & 1984) | l10;
     break L6;
    }
    l11 = (b[((int) l5) - 58910] & 0xff) & 63;
    L8: {
     if (l9 + Integer.MIN_VALUE > 2147483631) { break L8; }
     l7 = ((l10 << 6) | ((l7 << 12) & 61440)) | l11;
     break L6;
    }
    l7 = ((l11 << 6) | ((l10 << 12) | ((l7 << 18) & 1835008))) | ((b[((int) l5) - 58909] & 0xff) & 63);
   }
   L9: while (true) {
    L10: {
     if (Words.get32(b, ((int) l2) - 58912) != l7) { break L10; }
     l2 = l1 + -1L;
     L11: while (true) {
      if ((l6 = (Words.get32(b, ((int) l0) - 58912) == l8) ? 1 : 0) != 0) { break L2; }
      l0 = l0 + 4L;
      l7 = (l2 != 0L) ? 1 : 0;
      l2 = l2 + -1L;
      if (l7 != 0) { continue L11; }
      break L2;
     }
    }
    l2 = l2 + 4L;
    if (!((l3 = l3 + -1L) == 0L)) { continue L9; }
    break L9;
   }
  }
  final int t12 = l6;
  return t12;
 }
 throw State.trap();
}

static int f158(State m, long l0, long l1, long l2, long l3) {
 final byte[] b = m.bytes;
 long l4 = 0;
 long l5 = 0;
 int l6 = 0;
 int l7 = 0;
 int l8 = 0;
 int l9 = 0;
 L1: {
  if (m.g0 < 16L) { break L1; }
  L2: {
   if (!(l3 == 0L)) { break L2; }
   return 0;
  }
  L3: {
   if ((l6 = (int) b[((int) (l2 + (l4 = l3 + -1L))) - 58912]) >= 0) { break L3; }
   l4 = -2L;
   L4: {
    if ((b[((int) ((l5 = l2 + l3) + -2L)) - 58912] & 0xff) + Integer.MIN_VALUE > -2147483457) { break L4; }
    l4 = ((b[((int) (l5 + -3L)) - 58912] & 0xff) + Integer.MIN_VALUE > -2147483457) ? -3L : -4L;
   }
   l6 = (l7 = (int) b[((int) (l3 = l2 + (l4 = l4 + l3))) - 58912]) & 255;
   if (l7 > -1) { break L3; }
   l8 = (b[((int) l3) - 58911] & 0xff) & 63;
   L5: {
    if (l7 + Integer.MIN_VALUE > 2147483615) { break L5; }
    l6 = ((l6 << 6) & 1984) | l8;
    break L3;
   }
   l9 = (b[((int) l3) - 58910] & 0xff) & 63;
   L6: {
    if (l7 + Integer.MIN_VALUE > 2147483631) { break L6; }
    l6 = ((l8 << 6) | ((l6 << 12) & 61440)) | l9;
    break L3;
   }
   l6 = ((l9 << 6) | ((l8 << 12) | ((l6 << 18) & 1835008))) | ((b[((int) l3) - 58909] & 0xff) & 63);
  }
  l3 = -32L;
  L7: {
   L8: while (true) {
    if ((l8 = Words.get32(b, ((int) (l3 + 83884L)) - 58912)) == l6) { break L7; }
    l7 = (l3 != 0L) ? 1 : 0;
    l3 = l3 + 4L;
    if (l7 != 0) { continue L8; }
    break L8;
   }
  }
  l7 = 0;
  L9: {
   if (l4 == 0L) { break L9; }
   if (l8 != l6) { break L9; }
   L10: {
    if ((l6 = (int) b[((int) ((l3 = l2 + l4) + -1L)) - 58912]) >= 0) { break L10; }
    l5 = -2L;
    L11: {
     if ((b[((int) (l3 + -2L)) - 58912] & 0xff) + Integer.MIN_VALUE > -2147483457) { break L11; }
     l5 = ((b[((int) (l3 + -3L)) - 58912] & 0xff) + Integer.MIN_VALUE > -2147483457) ? -3L : -4L;
    }
    l6 = (l7 = (int) b[((int) (l3 = (l2 + l5) + l4)) - 58912]) & 255;
    if (l7 > -1) { break L10; }
    l8 = (b[((int) l3) - 58911] & 0xff) & 63;
    L12: {
     if (l7 + Integer.MIN_VALUE > 2147483615) { break L12; }
     l6 = ((l6 << 6) & 1984) | l8;
     break L10;
    }
    l9 = (b[((int) l3) - 58910] & 0xff) & 63;
    L13: {
     if (l7 + Integer.MIN_VALUE > 2147483631) { break L13; }
     l6 = ((l8 << 6) | ((l6 << 12) & 61440)) | l9;
     break L10;
    }
    l6 = ((l9 << 6) | ((l8 << 12) | ((l6 << 18) & 1835008))) | ((b[((int) l3) - 58909] & 0xff) & 63);
   }
   l7 = 1;
   if (Words.get32(b, ((int) l0) - 58912) == l6) { break L9; }
   if (Words.get32(b, ((int) (l0 + 4L)) - 58912) == l6) { break L9; }
   if (Words.get32(b, ((int) (l0 + 8L)) - 58912) == l6) { break L9; }
   if ((l7 = (Words.get32(b, ((int) (l0 + 12L)) - 58912) == l6) ? 1 : 0) != 0) { break L9; }
   if (l1 == 4L) { break L9; }
   if ((l7 = (Words.get32(b, ((int) (l0 + 16L)) - 58912) == l6) ? 1 : 0) != 0) { break L9; }
   if (l1 == 5L) { break L9; }
   if ((l7 = (Words.get32(b, ((int) (l0 + 20L)) - 58912) == l6) ? 1 : 0) != 0) { break L9; }
   if (l1 == 6L) { break L9; }
   l7 = (Words.get32(b, ((int) (l0 + 24L)) - 58912) == l6) ? 1 : 0;
  }
  final int t14 = l7;
  return t14;
 }
 throw State.trap();
}

static void f159(State m, long l0, int l1, long l2, long l3) {
 final byte[] b = m.bytes;
 long l4 = 0;
 long l5 = 0;
 int l6 = 0;
 int l7 = 0;
 int l8 = 0;
 int l9 = 0;
 m.g0 = l4 = m.g0 - 32L;
 L1: {
  if ((l4 = l4) < 16L) { break L1; }
  l5 = 0L;
  Words.put64(b, ((int) l4) - 58888, 0L);
  Words.put64(b, ((int) l4) - 58896, 0L);
  Words.put64(b, ((int) l4) - 58904, 0L);
  Words.put32(b, ((int) l4) - 58908, l1);
  Core4.f138(m, l4 + 8L, l4 + 4L, 1L, 83960L, 2L, l2, l3);
  L2: {
   L3: {
    if ((b[((int) l4) - 58904] & 0xff) != 1) { break L3; }
    Words.put64(b, ((int) l0) - 58912, 1L);
    Words.put64(b, ((int) (l0 + 16L)) - 58912, Words.get64(b, ((int) l4) - 58888));
    Words.put64(b, ((int) (l0 + 8L)) - 58912, Words.get64(b, ((int) l4) - 58896));
    break L2;
   }
   L4: {
    L5: {
     if (l3 == 0L) { break L5; }
     L6: {
      if ((l6 = (int) b[((int) l2) - 58912]) > -1) { break L6; }
      if (l6 + Integer.MIN_VALUE < 2147483616) { break L6; }
      l7 = l6 & 255;
      l8 = (b[((int) l2) - 58911] & 0xff) & 63;
      l9 = (b[((int) l2) - 58910] & 0xff) & 63;
      L7: {
       L8: {
        if (l6 + Integer.MIN_VALUE > 2147483631) { break L8; }
        l6 = ((l8 << 6) | ((l7 << 12) & 61440)) | l9;
        l5 = 3L;
        break L7;
       }
       l6 = ((l9 << 6) | ((l8 << 12) | ((l7 << 18) & 1835008))) | ((b[((int) l2) - 58909] & 0xff) & 63);
       l5 = 4L;
      }
      if (l1 != l6) { break L6; }
      l3 = l3 - l5;
      l2 = l2 + l5;
      l5 = 1L;
      break L4;
     }
     l5 = 0L;
    }
    l2 = 0L;
    l3 = 0L;
   }
   Words.put64(b, ((int) l0) - 58912, l5);
   Words.put64(b, ((int) (l0 + 16L)) - 58912, l3);
   Words.put64(b, ((int) (l0 + 8L)) - 58912, l2);
  }
  m.g0 = l4 + 32L;
  return;
 }
 throw State.trap();
}

static void f160(State m, long l0, long l1, long l2) {
 final byte[] b = m.bytes;
 long l3 = 0;
 long l4 = 0;
 int l5 = 0;
 int l6 = 0;
 int l7 = 0;
 int l8 = 0;
 m.g0 = l3 = m.g0 - 144L;
 L1: {
  L2: {
   if ((l3 = l3) < 16L) { break L2; }
   Words.put64(b, ((int) l3) - 58824, 0L);
   Words.put64(b, ((int) l3) - 58832, 0L);
   Words.put64(b, ((int) l3) - 58840, 0L);
   Words.put64(b, ((int) l3) - 58880, 0L);
   Words.put64(b, ((int) l3) - 58872, 0L);
   Words.put64(b, ((int) l3) - 58864, 0L);
   Words.put64(b, ((int) l3) - 58904, 0L);
   Words.put64(b, ((int) l3) - 58896, 0L);
   Words.put64(b, ((int) l3) - 58888, 0L);
   Words.put64(b, ((int) l3) - 58792, 0L);
   Words.put64(b, ((int) l3) - 58784, 0L);
   Words.put64(b, ((int) l3) - 58776, 0L);
   Words.put64(b, ((int) l3) - 58816, 0L);
   Words.put64(b, ((int) l3) - 58808, 0L);
   Words.put64(b, ((int) l3) - 58800, 0L);
   Core4.f138(m, l3 + 120L, 83948L, 1L, 83952L, 2L, l1, l2);
   L3: {
    L4: {
     L5: {
      if ((b[((int) l3) - 58792] & 0xff) != 1) { break L5; }
      Words.put64(b, ((int) l3) - 58848, Words.get64(b, ((int) l3) - 58776));
      Words.put64(b, ((int) l3) - 58856, Words.get64(b, ((int) l3) - 58784));
      break L4;
     }
     Core4.f138(m, l3 + 96L, 83960L, 2L, 83968L, 2L, l1, l2);
     Words.put64(b, ((int) l3) - 58856, Words.get64(b, ((int) l3) - 58808));
     Words.put64(b, ((int) l3) - 58848, Words.get64(b, ((int) l3) - 58800));
     if ((b[((int) l3) - 58816] & 0xff) != 1) { break L3; }
    }
    Words.put64(b, ((int) l0) - 58912, 1L);
    Words.put64(b, ((int) (l0 + 8L)) - 58912, Words.get64(b, ((int) l3) - 58856));
    Words.put64(b, ((int) (l0 + 16L)) - 58912, Words.get64(b, ((int) l3) - 58848));
    break L1;
   }
   L6: {
    if (l2 == 0L) { break L6; }
    if ((l5 = (int) b[((int) l1) - 58912]) > -1) { break L6; }
    if (l5 + Integer.MIN_VALUE < 2147483616) { break L6; }
    l6 = l5 & 255;
    l7 = (b[((int) l1) - 58911] & 0xff) & 63;
    l8 = (b[((int) l1) - 58910] & 0xff) & 63;
    L7: {
     L8: {
      if (l5 + Integer.MIN_VALUE > 2147483631) { break L8; }
      l5 = ((l7 << 6) | ((l6 << 12) & 61440)) | l8;
      l4 = 3L;
      break L7;
     }
     l5 = ((l8 << 6) | ((l7 << 12) | ((l6 << 18) & 1835008))) | ((b[((int) l1) - 58909] & 0xff) & 63);
     l4 = 4L;
    }
    if (l5 != 26376) { break L6; }
    Words.put64(b, ((int) l0) - 58912, 1L);
    Words.put64(b, ((int) (l0 + 8L)) - 58912, l1 = l1 + l4);
    Words.put64(b, ((int) (l0 + 16L)) - 58912, l0 = l2 - l4);
    Words.put64(b, ((int) l3) - 58824, l0);
    Words.put64(b, ((int) l3) - 58832, l1);
    break L1;
   }
   Core4.f138(m, l3 + 32L, 83976L, 1L, 83980L, 1L, l1, l2);
   L9: {
    if ((b[((int) l3) - 58880] & 0xff) != 1) { break L9; }
    Words.put64(b, ((int) l0) - 58912, 1L);
    Words.put64(b, ((int) (l0 + 8L)) - 58912, Words.get64(b, ((int) l3) - 58872));
    Words.put64(b, ((int) (l0 + 16L)) - 58912, Words.get64(b, ((int) l3) - 58864));
    break L1;
   }
   Core4.f138(m, l3 + 8L, 83984L, 2L, 83992L, 1L, l1, l2);
   L10: {
    if ((b[((int) l3) - 58904] & 0xff) != 1) { break L10; }
    Words.put64(b, ((int) l0) - 58912, 1L);
    Words.put64(b, ((int) (l0 + 8L)) - 58912, Words.get64(b, ((int) l3) - 58896));
    Words.put64(b, ((int) (l0 + 16L)) - 58912, Words.get64(b, ((int) l3) - 58888));
    break L1;
   }
   Core4.f138(m, l3 + 72L, 83996L, 1L, 84000L, 2L, l1, l2);
   Words.put64(b, ((int) l0) - 58912, b[((int) l3) - 58840] & 0xffL);
   Words.put64(b, ((int) (l0 + 8L)) - 58912, Words.get64(b, ((int) l3) - 58832));
   Words.put64(b, ((int) (l0 + 16L)) - 58912, Words.get64(b, ((int) l3) - 58824));
   break L1;
  }
  throw State.trap();
 }
 m.g0 = l3 + 144L;
}

static void f161(State m, long l0, long l1, long l2) {
 final byte[] b = m.bytes;
 long l3 = 0;
 long l4 = 0;
 int l5 = 0;
 int l6 = 0;
 int l7 = 0;
 int l8 = 0;
 m.g0 = l3 = m.g0 - 32L;
 L1: {
  L2: {
   if ((l3 = l3) < 16L) { break L2; }
   L3: {
    if (l2 == 0L) { break L3; }
    if ((l5 = (int) b[((int) l1) - 58912]) > -1) { break L3; }
    if (l5 + Integer.MIN_VALUE < 2147483616) { break L3; }
    l6 = l5 & 255;
    l7 = (b[((int) l1) - 58911] & 0xff) & 63;
    l8 = (b[((int) l1) - 58910] & 0xff) & 63;
    L4: {
     L5: {
      if (l5 + Integer.MIN_VALUE > 2147483631) { break L5; }
      l5 = ((l7 << 6) | ((l6 << 12) & 61440)) | l8;
      l4 = 3L;
      break L4;
     }
     l5 = ((l8 << 6) | ((l7 << 12) | ((l6 << 18) & 1835008))) | ((b[((int) l1) - 58909] & 0xff) & 63);
     l4 = 4L;
    }
    L6: {
     if (l5 == 26202) { break L6; }
     if (l5 != 26089) { break L3; }
    }
    Words.put64(b, ((int) l3) - 58904, 1L);
    Core4.f138(m, l3 + 8L, 83504L, 1L, 83836L, 2L, l1 = l1 + l4, l2 = l2 - l4);
    Words.put64(b, ((int) (l0 + 16L)) - 58912, ((l5 = ((b[((int) l3) - 58904] & 0xff) != 1) ? 1 : 0) != 0) ? l2 : 0L);
    Words.put64(b, ((int) (l0 + 8L)) - 58912, l5 != 0 ? l1 : 0L);
    Words.put64(b, ((int) l0) - 58912, l5 & 0xffffffffL);
    break L1;
   }
   Words.put64(b, ((int) l0) - 58896, 0L);
   Words.put64(b, ((int) l0) - 58904, 0L);
   Words.put64(b, ((int) l0) - 58912, 0L);
   break L1;
  }
  throw State.trap();
 }
 m.g0 = l3 + 32L;
}

static void f162(State m, long l0, long l1, long l2) {
 final byte[] b = m.bytes;
 long l3 = 0;
 long l4 = 0;
 long l5 = 0;
 long l6 = 0;
 int l7 = 0;
 int l8 = 0;
 int l9 = 0;
 int l10 = 0;
 int l11 = 0;
 int l12 = 0;
 int l13 = 0;
 int l14 = 0;
 int l15 = 0;
 m.g0 = l3 = m.g0 - 64L;
 L1: {
  if ((l3 = l3) < 16L) { break L1; }
  L2: {
   L3: {
    if (!(l2 == 0L)) { break L3; }
    l7 = 0;
    l8 = 0;
    break L2;
   }
   l4 = 1L;
   l8 = l9 = (l7 = (int) b[((int) l1) - 58912]) & 255;
   L4: {
    if (l7 > -1) { break L4; }
    l8 = (b[((int) l1) - 58911] & 0xff) & 63;
    L5: {
     if (l7 + Integer.MIN_VALUE > 2147483615) { break L5; }
     l8 = ((l9 << 6) & 1984) | l8;
     l4 = 2L;
     break L4;
    }
    l10 = (b[((int) l1) - 58910] & 0xff) & 63;
    L6: {
     if (l7 + Integer.MIN_VALUE > 2147483631) { break L6; }
     l8 = ((l8 << 6) | ((l9 << 12) & 61440)) | l10;
     l4 = 3L;
     break L4;
    }
    l8 = ((l10 << 6) | ((l8 << 12) | ((l9 << 18) & 1835008))) | ((b[((int) l1) - 58909] & 0xff) & 63);
    l4 = 4L;
   }
   L7: {
    L8: {
     if (l2 == l4) { break L8; }
     l11 = (l10 = (int) b[((int) (l5 = l1 + l4)) - 58912]) & 255;
     l6 = 1L;
     L9: {
      if (l10 > -1) { break L9; }
      l12 = (b[((int) l5) - 58911] & 0xff) & 63;
      L10: {
       if (l10 + Integer.MIN_VALUE > 2147483615) { break L10; }
       l11 = ((l11 << 6) & 1984) | l12;
       l6 = 2L;
       break L9;
      }
      l13 = (b[((int) l5) - 58910] & 0xff) & 63;
      L11: {
       if (l10 + Integer.MIN_VALUE > 2147483631) { break L11; }
       l11 = ((l12 << 6) | ((l11 << 12) & 61440)) | l13;
       l6 = 3L;
       break L9;
      }
      l11 = ((l13 << 6) | ((l12 << 12) | ((l11 << 18) & 1835008))) | ((b[((int) l5) - 58909] & 0xff) & 63);
      l6 = 4L;
     }
     if (l2 == (l4 = l6 + l4)) { break L8; }
     l12 = (l10 = (int) b[((int) (l5 = l5 + l6)) - 58912]) & 255;
     l6 = 1L;
     L12: {
      if (l10 > -1) { break L12; }
      l13 = (b[((int) l5) - 58911] & 0xff) & 63;
      L13: {
       if (l10 + Integer.MIN_VALUE > 2147483615) { break L13; }
       l12 = ((l12 << 6) & 1984) | l13;
       l6 = 2L;
       break L12;
      }
      l14 = (b[((int) l5) - 58910] & 0xff) & 63;
      L14: {
       if (l10 + Integer.MIN_VALUE > 2147483631) { break L14; }
       l12 = ((l13 << 6) | ((l12 << 12) & 61440)) | l14;
       l6 = 3L;
       break L12;
      }
      l12 = ((l14 << 6) | ((l13 << 12) | ((l12 << 18) & 1835008))) | ((b[((int) l5) - 58909] & 0xff) & 63);
      l6 = 4L;
     }
     if (l2 == (l4 = l6 + l4)) { break L8; }
     l13 = (l10 = (int) b[((int) (l5 = l5 + l6)) - 58912]) & 255;
     l6 = 1L;
     L15: {
      if (l10 > -1) { break L15; }
      l14 = (b[((int) l5) - 58911] & 0xff) & 63;
      L16: {
       if (l10 + Integer.MIN_VALUE > 2147483615) { break L16; }
       l13 = ((l13 << 6) & 1984) | l14;
       l6 = 2L;
       break L15;
      }
      l15 = (b[((int) l5) - 58910] & 0xff) & 63;
      L17: {
       if (l10 + Integer.MIN_VALUE > 2147483631) { break L17; }
       l13 = ((l14 << 6) | ((l13 << 12) & 61440)) | l15;
       l6 = 3L;
       break L15;
      }
      l13 = ((l15 << 6) | ((l14 << 12) | ((l13 << 18) & 1835008))) | ((b[((int) l5) - 58909] & 0xff) & 63);
      l6 = 4L;
     }
     if (l2 != (l6 + l4)) { break L8; }
     Core1.f24(m, l3 + 56L, l8);
     l8 = b[((int) l3) - 58856] & 0xff;
     l14 = b[((int) l3) - 58855] & 0xff;
     Core1.f24(m, l3 + 48L, l11);
     l10 = b[((int) l3) - 58864] & 0xff;
     l15 = b[((int) l3) - 58863] & 0xff;
     Core1.f24(m, l3 + 40L, l12);
     l12 = b[((int) l3) - 58871] & 0xff;
     l11 = b[((int) l3) - 58872] & 0xff;
     Core1.f24(m, l3 + 32L, l13);
     if ((l10 = (l11 = l11 & (b[((int) l3) - 58880] & 0xff)) & (l8 = l10 & l8)) != 1) { break L8; }
     final int t18 = l15 + (l14 * 10);
     final int t19 = l8 & 255;
     final int t20 = ((t19 != 0 ? t18 : 0) & 255) * 100;
     final int t21 = (b[((int) l3) - 58879] & 0xff) + (l12 * 10);
     final int t22 = l11;
     final int t23 = t20 + ((t22 != 0 ? t21 : 0) & 255);
     final int t24 = l10;
     l7 = t24 != 0 ? t23 : 0;
     break L7;
    }
    l4 = 1L;
    L25: {
     if (l7 > -1) { break L25; }
     l8 = (b[((int) l1) - 58911] & 0xff) & 63;
     L26: {
      if (l7 + Integer.MIN_VALUE > 2147483615) { break L26; }
      l9 = ((l9 << 6) & 1984) | l8;
      l4 = 2L;
      break L25;
     }
     l10 = (b[((int) l1) - 58910] & 0xff) & 63;
     L27: {
      if (l7 + Integer.MIN_VALUE > 2147483631) { break L27; }
      l9 = ((l8 << 6) | ((l9 << 12) & 61440)) | l10;
      l4 = 3L;
      break L25;
     }
     l9 = ((l10 << 6) | ((l8 << 12) | ((l9 << 18) & 1835008))) | ((b[((int) l1) - 58909] & 0xff) & 63);
     l4 = 4L;
    }
    l7 = 0;
    l8 = 0;
    if (l2 == l4) { break L2; }
    l10 = (l7 = (int) b[((int) (l6 = l1 + l4)) - 58912]) & 255;
    l1 = 1L;
    L28: {
     if (l7 > -1) { break L28; }
     l8 = (b[((int) l6) - 58911] & 0xff) & 63;
     L29: {
      if (l7 + Integer.MIN_VALUE > 2147483615) { break L29; }
      l10 = ((l10 << 6) & 1984) | l8;
      l1 = 2L;
      break L28;
     }
     l11 = (b[((int) l6) - 58910] & 0xff) & 63;
     L30: {
      if (l7 + Integer.MIN_VALUE > 2147483631) { break L30; }
      l10 = ((l8 << 6) | ((l10 << 12) & 61440)) | l11;
      l1 = 3L;
      break L28;
     }
     l10 = ((l11 << 6) | ((l8 << 12) | ((l10 << 18) & 1835008))) | ((b[((int) l6) - 58909] & 0xff) & 63);
     l1 = 4L;
    }
    l7 = 0;
    l8 = 0;
    if (l2 == (l4 = l1 + l4)) { break L2; }
    l11 = (l7 = (int) b[((int) (l6 = l6 + l1)) - 58912]) & 255;
    l1 = 1L;
    L31: {
     if (l7 > -1) { break L31; }
     l8 = (b[((int) l6) - 58911] & 0xff) & 63;
     L32: {
      if (l7 + Integer.MIN_VALUE > 2147483615) { break L32; }
      l11 = ((l11 << 6) & 1984) | l8;
      l1 = 2L;
      break L31;
     }
     l12 = (b[((int) l6) - 58910] & 0xff) & 63;
     L33: {
      if (l7 + Integer.MIN_VALUE > 2147483631) { break L33; }
      l11 = ((l8 << 6) | ((l11 << 12) & 61440)) | l12;
      l1 = 3L;
      break L31;
     }
     l11 = ((l12 << 6) | ((l8 << 12) | ((l11 << 18) & 1835008))) | ((b[((int) l6) - 58909] & 0xff) & 63);
     l1 = 4L;
    }
    l7 = 0;
    l8 = 0;
    if (l2 == (l4 = l1 + l4)) { break L2; }
    l12 = (l7 = (int) b[((int) (l6 = l6 + l1)) - 58912]) & 255;
    l1 = 1L;
    L34: {
     if (l7 > -1) { break L34; }
     l8 = (b[((int) l6) - 58911] & 0xff) & 63;
     L35: {
      if (l7 + Integer.MIN_VALUE > 2147483615) { break L35; }
      l12 = ((l12 << 6) & 1984) | l8;
      l1 = 2L;
      break L34;
     }
     l13 = (b[((int) l6) - 58910] & 0xff) & 63;
     L36: {
      if (l7 + Integer.MIN_VALUE > 2147483631) { break L36; }
      l12 = ((l8 << 6) | ((l12 << 12) & 61440)) | l13;
      l1 = 3L;
      break L34;
     }
     l12 = ((l13 << 6) | ((l8 << 12) | ((l12 << 18) & 1835008))) | ((b[((int) l6) - 58909] & 0xff) & 63);
     l1 = 4L;
    }
    l7 = 0;
    l8 = 0;
    if (l2 != (l1 + l4)) { break L2; }
    f168(m, l3 + 24L, l9);
    l8 = b[((int) l3) - 58888] & 0xff;
    l13 = b[((int) l3) - 58887] & 0xff;
    f168(m, l3 + 16L, l10);
    l9 = b[((int) l3) - 58896] & 0xff;
    l14 = b[((int) l3) - 58895] & 0xff;
    f168(m, l3 + 8L, l11);
    l10 = b[((int) l3) - 58904] & 0xff;
    l11 = b[((int) l3) - 58903] & 0xff;
    f168(m, l3, l12);
    l7 = 0;
    L37: {
     if (((l9 = (l10 = l10 & (b[((int) l3) - 58912] & 0xff)) & (l8 = l9 & l8)) & 1) != 0) { break L37; }
     l8 = 0;
     break L2;
    }
    final int t38 = l14 + (l13 * 10);
    final int t39 = l8 & 255;
    final int t40 = ((t39 != 0 ? t38 : 0) & 255) * 100;
    final int t41 = (b[((int) l3) - 58911] & 0xff) + (l11 * 10);
    final int t42 = l10 & 255;
    final int t43 = t40 + ((t42 != 0 ? t41 : 0) & 255);
    final int t44 = l9 & 255;
    l7 = t44 != 0 ? t43 : 0;
   }
   l7 = ((l8 = (((l7 + -1000) & 65535) + Integer.MIN_VALUE < -2147481648) ? 1 : 0) != 0) ? l7 : 0;
  }
  Words.put16(b, ((int) l0) - 58910, (short) l7);
  b[((int) l0) - 58912] = (byte) l8;
  m.g0 = l3 + 64L;
  return;
 }
 throw State.trap();
}

static void f163(State m, long l0, long l1, long l2) {
 final byte[] b = m.bytes;
 long l3 = 0;
 long l4 = 0;
 long l5 = 0;
 int l6 = 0;
 int l7 = 0;
 int l8 = 0;
 int l9 = 0;
 int l10 = 0;
 m.g0 = l3 = m.g0 - 32L;
 L1: {
  L2: {
   L3: {
    L4: {
     L5: {
      L6: {
       L7: {
        if ((l3 = l3) < 16L) { break L7; }
        f162(m, l3 + 24L, l1, l2);
        l6 = 1;
        L8: {
         if ((b[((int) l3) - 58888] & 0xff) != 1) { break L8; }
         l7 = Words.get16(b, ((int) l3) - 58886) & 0xffff;
         break L1;
        }
        L9: {
         if (!(l2 == 0L)) { break L9; }
         l6 = 0;
         l7 = 0;
         break L2;
        }
        l8 = (l6 = (int) b[((int) l1) - 58912]) & 255;
        l4 = 1L;
        L10: {
         if (l6 > -1) { break L10; }
         l7 = (b[((int) l1) - 58911] & 0xff) & 63;
         L11: {
          if (l6 + Integer.MIN_VALUE > 2147483615) { break L11; }
          l8 = ((l8 << 6) & 1984) | l7;
          l4 = 2L;
          break L10;
         }
         l9 = (b[((int) l1) - 58910] & 0xff) & 63;
         L12: {
          if (l6 + Integer.MIN_VALUE > 2147483631) { break L12; }
          l8 = ((l7 << 6) | ((l8 << 12) & 61440)) | l9;
          l4 = 3L;
          break L10;
         }
         l8 = ((l9 << 6) | ((l7 << 12) | ((l8 << 18) & 1835008))) | ((b[((int) l1) - 58909] & 0xff) & 63);
         l4 = 4L;
        }
        l6 = 0;
        l7 = 0;
        if (l2 == l4) { break L2; }
        l9 = (l6 = (int) b[((int) (l5 = l1 + l4)) - 58912]) & 255;
        l1 = 1L;
        L13: {
         if (l6 > -1) { break L13; }
         l7 = (b[((int) l5) - 58911] & 0xff) & 63;
         L14: {
          if (l6 + Integer.MIN_VALUE > 2147483615) { break L14; }
          l9 = ((l9 << 6) & 1984) | l7;
          l1 = 2L;
          break L13;
         }
         l10 = (b[((int) l5) - 58910] & 0xff) & 63;
         L15: {
          if (l6 + Integer.MIN_VALUE > 2147483631) { break L15; }
          l9 = ((l7 << 6) | ((l9 << 12) & 61440)) | l10;
          l1 = 3L;
          break L13;
         }
         l9 = ((l10 << 6) | ((l7 << 12) | ((l9 << 18) & 1835008))) | ((b[((int) l5) - 58909] & 0xff) & 63);
         l1 = 4L;
        }
        l6 = 0;
        l7 = 0;
        if (l2 != (l1 + l4)) { break L2; }
        l7 = 0;
        l6 = 0;
        L16: {
         if (l8 > 20107) { break L16; }
         if ((l10 = l8 + -19968) + Integer.MIN_VALUE <= -2147483612) { break L6; }
         break L4;
        }
        L17: {
         if (l8 > 22234) { break L17; }
         if ((l10 = l8 + -20841) + Integer.MIN_VALUE > -2147483644) { break L5; }
         if (((1 << l10) & 21) == 0) { break L5; }
         break L3;
        }
        if (l8 == 38646) { break L3; }
        if (l8 != 22235) { break L2; }
        break L3;
       }
       throw State.trap();
      }
      if (((1L << (l10 & 0xffffffffL)) & 68719477257L) == 0L) { break L4; }
      break L3;
     }
     switch (l8 + -20108) {
     case 0: case 8: break L3;
     default: break L2;
     }
    }
    if (l8 == 12295) { break L3; }
    if (l8 != 20061) { break L2; }
   }
   Core2.f63(m, l3 + 16L, l8);
   l6 = 0;
   l7 = 0;
   if (((b[((int) l3) - 58896] & 0xff) & 1) == 0) { break L2; }
   l8 = b[((int) l3) - 58895] & 0xff;
   l7 = 0;
   l6 = 0;
   L18: {
    L19: {
     L20: {
      L21: {
       L22: {
        if (l9 > 20107) { break L22; }
        if ((l10 = l9 + -19968) + Integer.MIN_VALUE <= -2147483612) { break L21; }
        break L19;
       }
       L23: {
        if (l9 > 22234) { break L23; }
        if ((l10 = l9 + -20841) + Integer.MIN_VALUE > -2147483644) { break L20; }
        if (((1 << l10) & 21) == 0) { break L20; }
        break L18;
       }
       if (l9 == 38646) { break L18; }
       if (l9 != 22235) { break L2; }
       break L18;
      }
      if (((1L << (l10 & 0xffffffffL)) & 68719477257L) == 0L) { break L19; }
      break L18;
     }
     switch (l9 + -20108) {
     case 0: case 8: break L18;
     default: break L2;
     }
    }
    if (l9 == 12295) { break L18; }
    if (l9 != 20061) { break L2; }
   }
   Core2.f63(m, l3 + 8L, l9);
   l6 = 0;
   l7 = 0;
   if (((b[((int) l3) - 58904] & 0xff) & 1) == 0) { break L2; }
   f169(m, l3, l8, b[((int) l3) - 58903] & 0xff);
   final int t24 = (b[((int) l3) - 58911] & 0xff) & 255;
   final int t25 = (l6 = b[((int) l3) - 58912] & 0xff) & 1;
   l7 = t25 != 0 ? t24 : 0;
  }
  l6 = l6 & 1;
 }
 Words.put16(b, ((int) l0) - 58910, (short) l7);
 b[((int) l0) - 58912] = (byte) l6;
 m.g0 = l3 + 32L;
}

static void f164(State m, long l0, long l1, long l2) {
 final byte[] b = m.bytes;
 long l3 = 0;
 long l4 = 0;
 long l5 = 0;
 long l6 = 0;
 int l7 = 0;
 int l8 = 0;
 int l9 = 0;
 int l10 = 0;
 int l11 = 0;
 int l12 = 0;
 int l13 = 0;
 int l14 = 0;
 m.g0 = l3 = m.g0 - 64L;
 L1: {
  L2: {
   L3: {
    L4: {
     L5: {
      L6: {
       L7: {
        if ((l3 = l3) < 16L) { break L7; }
        f165(m, l3 + 56L, l1, l2);
        l7 = 1;
        L8: {
         if ((b[((int) l3) - 58856] & 0xff) != 1) { break L8; }
         l8 = (b[((int) l3) - 58855] & 0xff) & 255;
         break L1;
        }
        L9: {
         if (!(l2 == 0L)) { break L9; }
         l8 = 0;
         l7 = 0;
         break L1;
        }
        l4 = 1L;
        l7 = l9 = (l8 = (int) b[((int) l1) - 58912]) & 255;
        L10: {
         if (l8 > -1) { break L10; }
         l7 = (b[((int) l1) - 58911] & 0xff) & 63;
         L11: {
          if (l8 + Integer.MIN_VALUE > 2147483615) { break L11; }
          l7 = ((l9 << 6) & 1984) | l7;
          l4 = 2L;
          break L10;
         }
         l10 = (b[((int) l1) - 58910] & 0xff) & 63;
         L12: {
          if (l8 + Integer.MIN_VALUE > 2147483631) { break L12; }
          l7 = ((l7 << 6) | ((l9 << 12) & 61440)) | l10;
          l4 = 3L;
          break L10;
         }
         l7 = ((l10 << 6) | ((l7 << 12) | ((l9 << 18) & 1835008))) | ((b[((int) l1) - 58909] & 0xff) & 63);
         l4 = 4L;
        }
        L13: {
         if (l2 == l4) { break L13; }
         l11 = (l10 = (int) b[((int) (l5 = l1 + l4)) - 58912]) & 255;
         l6 = 1L;
         L14: {
          if (l10 > -1) { break L14; }
          l12 = (b[((int) l5) - 58911] & 0xff) & 63;
          L15: {
           if (l10 + Integer.MIN_VALUE > 2147483615) { break L15; }
           l11 = ((l11 << 6) & 1984) | l12;
           l6 = 2L;
           break L14;
          }
          l13 = (b[((int) l5) - 58910] & 0xff) & 63;
          L16: {
           if (l10 + Integer.MIN_VALUE > 2147483631) { break L16; }
           l11 = ((l12 << 6) | ((l11 << 12) & 61440)) | l13;
           l6 = 3L;
           break L14;
          }
          l11 = ((l13 << 6) | ((l12 << 12) | ((l11 << 18) & 1835008))) | ((b[((int) l5) - 58909] & 0xff) & 63);
          l6 = 4L;
         }
         if (l2 == (l4 = l6 + l4)) { break L13; }
         l12 = (l10 = (int) b[((int) (l5 = l5 + l6)) - 58912]) & 255;
         l6 = 1L;
         L17: {
          if (l10 > -1) { break L17; }
          l13 = (b[((int) l5) - 58911] & 0xff) & 63;
          L18: {
           if (l10 + Integer.MIN_VALUE > 2147483615) { break L18; }
           l12 = ((l12 << 6) & 1984) | l13;
           l6 = 2L;
           break L17;
          }
          l14 = (b[((int) l5) - 58910] & 0xff) & 63;
          L19: {
           if (l10 + Integer.MIN_VALUE > 2147483631) { break L19; }
           l12 = ((l13 << 6) | ((l12 << 12) & 61440)) | l14;
           l6 = 3L;
           break L17;
          }
          l12 = ((l14 << 6) | ((l13 << 12) | ((l12 << 18) & 1835008))) | ((b[((int) l5) - 58909] & 0xff) & 63);
          l6 = 4L;
         }
         if (l2 != (l6 + l4)) { break L13; }
         Core1.f24(m, l3 + 48L, l7);
         l10 = b[((int) l3) - 58863] & 0xff;
         l13 = b[((int) l3) - 58864] & 0xff;
         Core1.f24(m, l3 + 40L, l11);
         l11 = b[((int) l3) - 58872] & 0xff;
         l14 = b[((int) l3) - 58871] & 0xff;
         Core1.f24(m, l3 + 32L, l12);
         l7 = 1;
         if ((l12 = l13 & 1) == 0) { break L13; }
         if (l10 == 0) { break L13; }
         if (((l11 = (b[((int) l3) - 58880] & 0xff) & l11) & 1) == 0) { break L13; }
         final int t20 = l10 * 100;
         final int t21 = l12;
         final int t22 = t21 != 0 ? t20 : 0;
         final int t23 = (b[((int) l3) - 58879] & 0xff) + (l14 * 10);
         final int t24 = l11 & 255;
         l8 = t22 + ((t24 != 0 ? t23 : 0) & 255);
         break L1;
        }
        l4 = 1L;
        L25: {
         if (l8 > -1) { break L25; }
         l7 = (b[((int) l1) - 58911] & 0xff) & 63;
         L26: {
          if (l8 + Integer.MIN_VALUE > 2147483615) { break L26; }
          l9 = ((l9 << 6) & 1984) | l7;
          l4 = 2L;
          break L25;
         }
         l10 = (b[((int) l1) - 58910] & 0xff) & 63;
         L27: {
          if (l8 + Integer.MIN_VALUE > 2147483631) { break L27; }
          l9 = ((l7 << 6) | ((l9 << 12) & 61440)) | l10;
          l4 = 3L;
          break L25;
         }
         l9 = ((l10 << 6) | ((l7 << 12) | ((l9 << 18) & 1835008))) | ((b[((int) l1) - 58909] & 0xff) & 63);
         l4 = 4L;
        }
        l8 = 0;
        l7 = 0;
        if (l2 == l4) { break L1; }
        l8 = 0;
        l7 = 0;
        if ((l10 = (int) b[((int) (l1 = l1 + l4)) - 58912]) > -1) { break L1; }
        l8 = 0;
        l7 = 0;
        if (l10 + Integer.MIN_VALUE < 2147483616) { break L1; }
        l7 = l10 & 255;
        l8 = (b[((int) l1) - 58911] & 0xff) & 63;
        l11 = (b[((int) l1) - 58910] & 0xff) & 63;
        L28: {
         L29: {
          if (l10 + Integer.MIN_VALUE > 2147483631) { break L29; }
          l10 = ((l8 << 6) | ((l7 << 12) & 61440)) | l11;
          l6 = 3L;
          break L28;
         }
         l10 = ((l11 << 6) | ((l8 << 12) | ((l7 << 18) & 1835008))) | ((b[((int) l1) - 58909] & 0xff) & 63);
         l6 = 4L;
        }
        l8 = 0;
        l7 = 0;
        if (l10 != 30334) { break L1; }
        l4 = l6 + l4;
        l7 = 0;
        l8 = 0;
        L30: {
         if (l9 > 20107) { break L30; }
         if ((l10 = l9 + -19968) + Integer.MIN_VALUE <= -2147483612) { break L6; }
         break L4;
        }
        L31: {
         if (l9 > 22234) { break L31; }
         if ((l10 = l9 + -20841) + Integer.MIN_VALUE > -2147483644) { break L5; }
         if (((1 << l10) & 21) == 0) { break L5; }
         break L3;
        }
        if (l9 == 38646) { break L3; }
        if (l9 != 22235) { break L2; }
        break L3;
       }
       throw State.trap();
      }
      if (((1L << (l10 & 0xffffffffL)) & 68719477257L) == 0L) { break L4; }
      break L3;
     }
     switch (l9 + -20108) {
     case 0: case 8: break L3;
     default: break L2;
     }
    }
    if (l9 == 12295) { break L3; }
    if (l9 != 20061) { break L2; }
   }
   Core2.f63(m, l3 + 24L, l9);
   final int t32 = l7 = b[((int) l3) - 58887] & 0xff;
   final int t33 = (l9 = b[((int) l3) - 58888] & 0xff) & 1;
   l8 = t33 != 0 ? t32 : 0;
   l7 = (((l7 & 255) != 0) ? 1 : 0) & l9;
  }
  L34: {
   L35: {
    if (l2 != l4) { break L35; }
    l9 = 1;
    l10 = 0;
    break L34;
   }
   l2 = l2 - l4;
   L36: {
    L37: {
     if ((l9 = (int) b[((int) (l4 = l1 + l6)) - 58912]) <= -1) { break L37; }
     l1 = 1L;
     break L36;
    }
    L38: {
     if (l9 + Integer.MIN_VALUE >= 2147483616) { break L38; }
     l1 = 2L;
     break L36;
    }
    l1 = (l9 + Integer.MIN_VALUE < 2147483632) ? 3L : 4L;
   }
   L39: {
    if (l2 != l1) { break L39; }
    l9 = 0;
    l10 = 0;
    break L34;
   }
   f165(m, l3 + 16L, l4, l2);
   l9 = 1;
   L40: {
    if ((b[((int) l3) - 58896] & 0xff) != 1) { break L40; }
    l10 = b[((int) l3) - 58895] & 0xff;
    break L34;
   }
   f166(m, l3 + 8L, l4, l2);
   l9 = (b[((int) l3) - 58904] & 0xff) & 1;
   l10 = b[((int) l3) - 58903] & 0xff;
  }
  final int t41 = ((l8 & 255) * 100) + (l10 & 255);
  final int t42 = l7 = l7 != 0 ? l9 : 0;
  l8 = t42 != 0 ? t41 : 0;
 }
 Words.put16(b, ((int) l0) - 58910, (short) l8);
 b[((int) l0) - 58912] = (byte) l7;
 m.g0 = l3 + 64L;
}

static void f165(State m, long l0, long l1, long l2) {
 final byte[] b = m.bytes;
 long l3 = 0;
 long l4 = 0;
 long l5 = 0;
 int l6 = 0;
 int l7 = 0;
 int l8 = 0;
 int l9 = 0;
 int l10 = 0;
 int l11 = 0;
 int l12 = 0;
 m.g0 = l3 = m.g0 - 64L;
 L1: {
  L2: {
   L3: {
    L4: {
     L5: {
      L6: {
       L7: {
        L8: {
         L9: {
          L10: {
           L11: {
            L12: {
             L13: {
              L14: {
               L15: {
                L16: {
                 L17: {
                  L18: {
                   L19: {
                    if ((l3 = l3) < 16L) { break L19; }
                    l6 = 0;
                    L20: {
                     if (!(l2 == 0L)) { break L20; }
                     l7 = 0;
                     break L1;
                    }
                    l8 = (l7 = (int) b[((int) l1) - 58912]) & 255;
                    l4 = 1L;
                    L21: {
                     if (l7 > -1) { break L21; }
                     l9 = (b[((int) l1) - 58911] & 0xff) & 63;
                     L22: {
                      if (l7 + Integer.MIN_VALUE > 2147483615) { break L22; }
                      l8 = ((l8 << 6) & 1984) | l9;
                      l4 = 2L;
                      break L21;
                     }
                     l10 = (b[((int) l1) - 58910] & 0xff) & 63;
                     L23: {
                      if (l7 + Integer.MIN_VALUE > 2147483631) { break L23; }
                      l8 = ((l9 << 6) | ((l8 << 12) & 61440)) | l10;
                      l4 = 3L;
                      break L21;
                     }
                     l8 = ((l10 << 6) | ((l9 << 12) | ((l8 << 18) & 1835008))) | ((b[((int) l1) - 58909] & 0xff) & 63);
                     l4 = 4L;
                    }
                    L24: {
                     L25: {
                      L26: {
                       L27: {
                        L28: {
                         if (l2 == l4) { break L28; }
                         l9 = (l7 = (int) b[((int) (l5 = l1 + l4)) - 58912]) & 255;
                         l1 = 1L;
                         L29: {
                          if (l7 > -1) { break L29; }
                          l10 = (b[((int) l5) - 58911] & 0xff) & 63;
                          L30: {
                           if (l7 + Integer.MIN_VALUE > 2147483615) { break L30; }
                           l9 = ((l9 << 6) & 1984) | l10;
                           l1 = 2L;
                           break L29;
                          }
                          l11 = (b[((int) l5) - 58910] & 0xff) & 63;
                          L31: {
                           if (l7 + Integer.MIN_VALUE > 2147483631) { break L31; }
                           l9 = ((l10 << 6) | ((l9 << 12) & 61440)) | l11;
                           l1 = 3L;
                           break L29;
                          }
                          l9 = ((l11 << 6) | ((l10 << 12) | ((l9 << 18) & 1835008))) | ((b[((int) l5) - 58909] & 0xff) & 63);
                          l1 = 4L;
                         }
                         if (l2 == (l4 = l1 + l4)) { break L25; }
                         l10 = (l7 = (int) b[((int) (l5 = l5 + l1)) - 58912]) & 255;
                         l1 = 1L;
                         if (l7 > -1) { break L26; }
                         l11 = (b[((int) l5) - 58911] & 0xff) & 63;
                         L32: {
                          if (l7 + Integer.MIN_VALUE > 2147483615) { break L32; }
                          l10 = ((l10 << 6) & 1984) | l11;
                          l1 = 2L;
                          break L26;
                         }
                         l12 = (b[((int) l5) - 58910] & 0xff) & 63;
                         if (l7 + Integer.MIN_VALUE > 2147483631) { break L27; }
                         l10 = ((l11 << 6) | ((l10 << 12) & 61440)) | l12;
                         l1 = 3L;
                         break L26;
                        }
                        L33: {
                         if (l8 != 21313) { break L33; }
                         l7 = 1;
                         l6 = 10;
                         break L1;
                        }
                        Core1.f24(m, l3 + 8L, l8);
                        l7 = 1;
                        L34: {
                         if ((b[((int) l3) - 58904] & 0xff) != 1) { break L34; }
                         l6 = b[((int) l3) - 58903] & 0xff;
                         break L1;
                        }
                        l7 = 0;
                        L35: {
                         if (l8 > 20107) { break L35; }
                         if ((l6 = l8 + -19968) + Integer.MIN_VALUE <= -2147483612) { break L18; }
                         break L3;
                        }
                        L36: {
                         if (l8 > 22234) { break L36; }
                         if ((l6 = l8 + -20841) + Integer.MIN_VALUE > -2147483644) { break L4; }
                         if (((1 << l6) & 21) == 0) { break L4; }
                         break L2;
                        }
                        if (l8 == 38646) { break L2; }
                        l6 = 0;
                        if (l8 != 22235) { break L1; }
                        break L2;
                       }
                       l10 = ((l12 << 6) | ((l11 << 12) | ((l10 << 18) & 1835008))) | ((b[((int) l5) - 58909] & 0xff) & 63);
                       l1 = 4L;
                      }
                      if (l2 == (l1 + l4)) { break L24; }
                      l7 = 0;
                      break L1;
                     }
                     L37: {
                      if (l8 != 21313) { break L37; }
                      L38: {
                       if (l9 > 20107) { break L38; }
                       if ((l8 = l9 + -19968) + Integer.MIN_VALUE <= -2147483612) { break L17; }
                       break L6;
                      }
                      L39: {
                       if (l9 > 22234) { break L39; }
                       if ((l8 = l9 + -20841) + Integer.MIN_VALUE > -2147483644) { break L7; }
                       if (((1 << l8) & 21) == 0) { break L7; }
                       break L5;
                      }
                      if (l9 == 38646) { break L5; }
                      l7 = 0;
                      if (l9 != 22235) { break L1; }
                      break L5;
                     }
                     L40: {
                      if (l9 != 21313) { break L40; }
                      L41: {
                       if (l8 > 20107) { break L41; }
                       if ((l7 = l8 + -19968) + Integer.MIN_VALUE <= -2147483612) { break L16; }
                       break L9;
                      }
                      L42: {
                       if (l8 > 22234) { break L42; }
                       if ((l7 = l8 + -20841) + Integer.MIN_VALUE > -2147483644) { break L10; }
                       if (((1 << l7) & 21) == 0) { break L10; }
                       break L8;
                      }
                      if (l8 == 38646) { break L8; }
                      l7 = 0;
                      if (l8 != 22235) { break L1; }
                      break L8;
                     }
                     Core1.f24(m, l3 + 40L, l8);
                     l6 = b[((int) l3) - 58872] & 0xff;
                     l8 = b[((int) l3) - 58871] & 0xff;
                     Core1.f24(m, l3 + 32L, l9);
                     final int t43 = (b[((int) l3) - 58879] & 0xff) + (l8 * 10);
                     final int t44 = (l7 = l6 & (b[((int) l3) - 58880] & 0xff)) & 255;
                     l6 = t44 != 0 ? t43 : 0;
                     break L1;
                    }
                    l7 = 0;
                    if (l9 != 21313) { break L1; }
                    l6 = 0;
                    l7 = 0;
                    L45: {
                     if (l8 > 20107) { break L45; }
                     if ((l9 = l8 + -19968) + Integer.MIN_VALUE <= -2147483612) { break L15; }
                     break L13;
                    }
                    L46: {
                     if (l8 > 22234) { break L46; }
                     if ((l9 = l8 + -20841) + Integer.MIN_VALUE > -2147483644) { break L14; }
                     if (((1 << l9) & 21) == 0) { break L14; }
                     break L12;
                    }
                    if (l8 == 38646) { break L12; }
                    if (l8 != 22235) { break L11; }
                    break L12;
                   }
                   throw State.trap();
                  }
                  if (((1L << (l6 & 0xffffffffL)) & 68719477257L) == 0L) { break L3; }
                  break L2;
                 }
                 if (((1L << (l8 & 0xffffffffL)) & 68719477257L) == 0L) { break L6; }
                 break L5;
                }
                if (((1L << (l7 & 0xffffffffL)) & 68719477257L) == 0L) { break L9; }
                break L8;
               }
               if (((1L << (l9 & 0xffffffffL)) & 68719477257L) == 0L) { break L13; }
               break L12;
              }
              switch (l8 + -20108) {
              case 0: case 8: break L12;
              default: break L11;
              }
             }
             if (l8 == 12295) { break L12; }
             if (l8 != 20061) { break L11; }
            }
            Core2.f63(m, l3 + 56L, l8);
            final int t47 = (l6 = b[((int) l3) - 58855] & 0xff) * 10;
            final int t48 = (l8 = b[((int) l3) - 58856] & 0xff) & 1;
            l7 = t48 != 0 ? t47 : 0;
            l6 = (((l6 & 255) != 0) ? 1 : 0) & l8;
           }
           l8 = 0;
           L49: {
            L50: {
             L51: {
              L52: {
               L53: {
                L54: {
                 if (l10 > 20107) { break L54; }
                 if ((l9 = l10 + -19968) + Integer.MIN_VALUE <= -2147483612) { break L53; }
                 break L51;
                }
                L55: {
                 if (l10 > 22234) { break L55; }
                 if ((l9 = l10 + -20841) + Integer.MIN_VALUE > -2147483644) { break L52; }
                 if (((1 << l9) & 21) == 0) { break L52; }
                 break L50;
                }
                if (l10 == 38646) { break L50; }
                l9 = 0;
                if (l10 != 22235) { break L49; }
                break L50;
               }
               if (((1L << (l9 & 0xffffffffL)) & 68719477257L) == 0L) { break L51; }
               break L50;
              }
              l9 = 0;
              switch (l10 + -20108) {
              case 0: case 8: break L50;
              default: break L49;
              }
             }
             if (l10 == 12295) { break L50; }
             l9 = 0;
             if (l10 != 20061) { break L49; }
            }
            Core2.f63(m, l3 + 48L, l10);
            final int t56 = l9 = b[((int) l3) - 58863] & 0xff;
            final int t57 = (l10 = b[((int) l3) - 58864] & 0xff) & 1;
            l8 = t57 != 0 ? t56 : 0;
            l9 = (((l9 & 255) != 0) ? 1 : 0) & l10;
           }
           final int t58 = l8 + l7;
           final int t59 = l7 = l6 & l9;
           l6 = t59 != 0 ? t58 : 0;
           break L1;
          }
          l7 = 0;
          switch (l8 + -20108) {
          case 0: case 8: break L8;
          default: break L1;
          }
         }
         if (l8 == 12295) { break L8; }
         l7 = 0;
         if (l8 != 20061) { break L1; }
        }
        Core2.f63(m, l3 + 24L, l8);
        final int t60 = (l8 = b[((int) l3) - 58887] & 0xff) * 10;
        final int t61 = l7 = (b[((int) l3) - 58888] & 0xff) & 1;
        l6 = t61 != 0 ? t60 : 0;
        l7 = l7 & (((l8 & 255) != 0) ? 1 : 0);
        break L1;
       }
       l7 = 0;
       switch (l9 + -20108) {
       case 0: case 8: break L5;
       default: break L1;
       }
      }
      if (l9 == 12295) { break L5; }
      l7 = 0;
      if (l9 != 20061) { break L1; }
     }
     Core2.f63(m, l3 + 16L, l9);
     final int t62 = (l6 = b[((int) l3) - 58895] & 0xff) + 10;
     final int t63 = l8 = (b[((int) l3) - 58896] & 0xff) & 1;
     final int t64 = t63 != 0 ? t62 : 10;
     final int t65 = l7 = l8 & (((l6 & 255) != 0) ? 1 : 0);
     l6 = t65 != 0 ? t64 : 0;
     break L1;
    }
    l6 = 0;
    switch (l8 + -20108) {
    case 0: case 8: break L2;
    default: break L1;
    }
   }
   if (l8 == 12295) { break L2; }
   l6 = 0;
   if (l8 != 20061) { break L1; }
  }
  Core2.f63(m, l3, l8);
  l6 = b[((int) l3) - 58911] & 0xff;
  l7 = b[((int) l3) - 58912] & 0xff;
 }
 b[((int) l0) - 58911] = (byte) l6;
 b[((int) l0) - 58912] = (byte) l7;
 m.g0 = l3 + 64L;
}

static void f166(State m, long l0, long l1, long l2) {
 final byte[] b = m.bytes;
 long l3 = 0;
 long l4 = 0;
 long l5 = 0;
 int l6 = 0;
 int l7 = 0;
 int l8 = 0;
 int l9 = 0;
 int l10 = 0;
 int l11 = 0;
 m.g0 = l3 = m.g0 - 16L;
 L1: {
  L2: {
   L3: {
    L4: {
     L5: {
      L6: {
       if ((l3 = l3) < 16L) { break L6; }
       l6 = 0;
       L7: {
        if (!(l2 == 0L)) { break L7; }
        l7 = 0;
        break L1;
       }
       l8 = (l7 = (int) b[((int) l1) - 58912]) & 255;
       l4 = 1L;
       L8: {
        if (l7 > -1) { break L8; }
        l9 = (b[((int) l1) - 58911] & 0xff) & 63;
        L9: {
         if (l7 + Integer.MIN_VALUE > 2147483615) { break L9; }
         l8 = ((l8 << 6) & 1984) | l9;
         l4 = 2L;
         break L8;
        }
        l10 = (b[((int) l1) - 58910] & 0xff) & 63;
        L10: {
         if (l7 + Integer.MIN_VALUE > 2147483631) { break L10; }
         l8 = ((l9 << 6) | ((l8 << 12) & 61440)) | l10;
         l4 = 3L;
         break L8;
        }
        l8 = ((l10 << 6) | ((l9 << 12) | ((l8 << 18) & 1835008))) | ((b[((int) l1) - 58909] & 0xff) & 63);
        l4 = 4L;
       }
       L11: {
        if (l2 != l4) { break L11; }
        l7 = 0;
        break L1;
       }
       l9 = (l7 = (int) b[((int) (l5 = l1 + l4)) - 58912]) & 255;
       l1 = 1L;
       L12: {
        if (l7 > -1) { break L12; }
        l10 = (b[((int) l5) - 58911] & 0xff) & 63;
        L13: {
         if (l7 + Integer.MIN_VALUE > 2147483615) { break L13; }
         l9 = ((l9 << 6) & 1984) | l10;
         l1 = 2L;
         break L12;
        }
        l11 = (b[((int) l5) - 58910] & 0xff) & 63;
        L14: {
         if (l7 + Integer.MIN_VALUE > 2147483631) { break L14; }
         l9 = ((l10 << 6) | ((l9 << 12) & 61440)) | l11;
         l1 = 3L;
         break L12;
        }
        l9 = ((l11 << 6) | ((l10 << 12) | ((l9 << 18) & 1835008))) | ((b[((int) l5) - 58909] & 0xff) & 63);
        l1 = 4L;
       }
       L15: {
        if (l2 == (l1 + l4)) { break L15; }
        l7 = 0;
        break L1;
       }
       L16: {
        if (l8 == 38646) { break L16; }
        if (l8 == 12295) { break L16; }
        l7 = 0;
        break L1;
       }
       L17: {
        if (l9 > 20107) { break L17; }
        if ((l7 = l9 + -19968) + Integer.MIN_VALUE <= -2147483612) { break L5; }
        break L3;
       }
       L18: {
        if (l9 > 22234) { break L18; }
        if ((l7 = l9 + -20841) + Integer.MIN_VALUE > -2147483644) { break L4; }
        if (((1 << l7) & 21) == 0) { break L4; }
        break L2;
       }
       if (l9 == 38646) { break L2; }
       l7 = 0;
       if (l9 != 22235) { break L1; }
       break L2;
      }
      throw State.trap();
     }
     if (((1L << (l7 & 0xffffffffL)) & 68719477257L) == 0L) { break L3; }
     break L2;
    }
    l7 = 0;
    switch (l9 + -20108) {
    case 0: case 8: break L2;
    default: break L1;
    }
   }
   if (l9 == 12295) { break L2; }
   l7 = 0;
   if (l9 != 20061) { break L1; }
  }
  Core2.f63(m, l3 + 8L, l9);
  l6 = b[((int) l3) - 58903] & 0xff;
  l7 = b[((int) l3) - 58904] & 0xff;
 }
 b[((int) l0) - 58911] = (byte) l6;
 b[((int) l0) - 58912] = (byte) l7;
 m.g0 = l3 + 16L;
}

static void f167(State m, long l0, long l1, long l2) {
 final byte[] b = m.bytes;
 long l3 = 0;
 long l4 = 0;
 long l5 = 0;
 int l6 = 0;
 int l7 = 0;
 int l8 = 0;
 int l9 = 0;
 int l10 = 0;
 int l11 = 0;
 m.g0 = l3 = m.g0 - 16L;
 L1: {
  if ((l3 = l3) < 16L) { break L1; }
  l6 = 0;
  L2: {
   L3: {
    if (!(l2 == 0L)) { break L3; }
    l7 = 0;
    break L2;
   }
   l8 = (l7 = (int) b[((int) l1) - 58912]) & 255;
   l4 = 1L;
   L4: {
    if (l7 > -1) { break L4; }
    l9 = (b[((int) l1) - 58911] & 0xff) & 63;
    L5: {
     if (l7 + Integer.MIN_VALUE > 2147483615) { break L5; }
     l8 = ((l8 << 6) & 1984) | l9;
     l4 = 2L;
     break L4;
    }
    l10 = (b[((int) l1) - 58910] & 0xff) & 63;
    L6: {
     if (l7 + Integer.MIN_VALUE > 2147483631) { break L6; }
     l8 = ((l9 << 6) | ((l8 << 12) & 61440)) | l10;
     l4 = 3L;
     break L4;
    }
    l8 = ((l10 << 6) | ((l9 << 12) | ((l8 << 18) & 1835008))) | ((b[((int) l1) - 58909] & 0xff) & 63);
    l4 = 4L;
   }
   L7: {
    if (l2 != l4) { break L7; }
    l7 = 0;
    break L2;
   }
   l9 = (l7 = (int) b[((int) (l5 = l1 + l4)) - 58912]) & 255;
   l1 = 1L;
   L8: {
    if (l7 > -1) { break L8; }
    l10 = (b[((int) l5) - 58911] & 0xff) & 63;
    L9: {
     if (l7 + Integer.MIN_VALUE > 2147483615) { break L9; }
     l9 = ((l9 << 6) & 1984) | l10;
     l1 = 2L;
     break L8;
    }
    l11 = (b[((int) l5) - 58910] & 0xff) & 63;
    L10: {
     if (l7 + Integer.MIN_VALUE > 2147483631) { break L10; }
     l9 = ((l10 << 6) | ((l9 << 12) & 61440)) | l11;
     l1 = 3L;
     break L8;
    }
    l9 = ((l11 << 6) | ((l10 << 12) | ((l9 << 18) & 1835008))) | ((b[((int) l5) - 58909] & 0xff) & 63);
    l1 = 4L;
   }
   l7 = 0;
   if (l2 != (l1 + l4)) { break L2; }
   Core1.f24(m, l3 + 8L, l8);
   l6 = b[((int) l3) - 58904] & 0xff;
   l7 = b[((int) l3) - 58903] & 0xff;
   Core1.f24(m, l3, l9);
   final int t11 = (b[((int) l3) - 58911] & 0xff) + (l7 * 10);
   final int t12 = (l7 = l6 & (b[((int) l3) - 58912] & 0xff)) & 255;
   l6 = t12 != 0 ? t11 : 0;
  }
  b[((int) l0) - 58911] = (byte) l6;
  b[((int) l0) - 58912] = (byte) l7;
  m.g0 = l3 + 16L;
  return;
 }
 throw State.trap();
}

static void f168(State m, long l0, int l1) {
 final byte[] b = m.bytes;
 long l2 = 0;
 int l3 = 0;
 int l4 = 0;
 m.g0 = l2 = m.g0 - 16L;
 L1: {
  L2: {
   L3: {
    L4: {
     L5: {
      L6: {
       if ((l2 = l2) < 16L) { break L6; }
       l3 = 0;
       L7: {
        if (l1 > 20107) { break L7; }
        if ((l4 = l1 + -19968) + Integer.MIN_VALUE <= -2147483612) { break L5; }
        break L3;
       }
       L8: {
        if (l1 > 22234) { break L8; }
        if ((l4 = l1 + -20841) + Integer.MIN_VALUE > -2147483644) { break L4; }
        if (((1 << l4) & 21) == 0) { break L4; }
        break L2;
       }
       if (l1 == 38646) { break L2; }
       l4 = 0;
       if (l1 != 22235) { break L1; }
       break L2;
      }
      throw State.trap();
     }
     if (((1L << (l4 & 0xffffffffL)) & 68719477257L) == 0L) { break L3; }
     break L2;
    }
    l4 = 0;
    switch (l1 + -20108) {
    case 0: case 8: break L2;
    default: break L1;
    }
   }
   if (l1 == 12295) { break L2; }
   l4 = 0;
   if (l1 != 20061) { break L1; }
  }
  Core2.f63(m, l2 + 8L, l1);
  l4 = b[((int) l2) - 58903] & 0xff;
  l3 = b[((int) l2) - 58904] & 0xff;
 }
 b[((int) l0) - 58911] = (byte) l4;
 b[((int) l0) - 58912] = (byte) l3;
 m.g0 = l2 + 16L;
}

static void f169(State m, long l0, int l1, int l2) {
 final byte[] b = m.bytes;
 int l3 = 0;
 L1: {
  if (m.g0 < 16L) { break L1; }
  L2: {
   L3: {
    if ((l3 = l1 & 255) != 0) { break L3; }
    l1 = 1;
    break L2;
   }
   final int t4 = (l1 * 10) + l2;
   final int t5 = l1 = (((l2 = l2 & 255) != ((l1 + 1) & 255)) & ((l3 != 3) | (l2 != 5))) ? 1 : 0;
   l2 = t5 != 0 ? t4 : 0;
  }
  b[((int) l0) - 58911] = (byte) l2;
  b[((int) l0) - 58912] = (byte) l1;
  return;
 }
 throw State.trap();
}

static int f170(State m, long l0, long l1, long l2, long l3, long l4, long l5) {
 final byte[] b = m.bytes;
 long l6 = 0;
 long l7 = 0;
 int l8 = 0;
 int l9 = 0;
 int l10 = 0;
 int l11 = 0;
 L1: {
  L2: {
   L3: {
    if (m.g0 < 16L) { break L3; }
    L4: {
     if (!(l5 == 0L)) { break L4; }
     return 0;
    }
    L5: {
     if ((l8 = (int) b[((int) (l4 + (l6 = l5 + -1L))) - 58912]) >= 0) { break L5; }
     l6 = -2L;
     L6: {
      if ((b[((int) ((l7 = l4 + l5) + -2L)) - 58912] & 0xff) + Integer.MIN_VALUE > -2147483457) { break L6; }
      l6 = ((b[((int) (l7 + -3L)) - 58912] & 0xff) + Integer.MIN_VALUE > -2147483457) ? -3L : -4L;
     }
     l8 = (l9 = (int) b[((int) (l5 = l4 + (l6 = l6 + l5))) - 58912]) & 255;
     if (l9 > -1) { break L5; }
     l10 = (b[((int) l5) - 58911] & 0xff) & 63;
     L7: {
      if (l9 + Integer.MIN_VALUE > 2147483615) { break L7; }
      l8 = ((l8 << 6) & 1984) | l10;
      break L5;
     }
     l11 = (b[((int) l5) - 58910] & 0xff) & 63;
     L8: {
      if (l9 + Integer.MIN_VALUE > 2147483631) { break L8; }
      l8 = ((l10 << 6) | ((l8 << 12) & 61440)) | l11;
      break L5;
     }
     l8 = ((l11 << 6) | ((l10 << 12) | ((l8 << 18) & 1835008))) | ((b[((int) l5) - 58909] & 0xff) & 63);
    }
    L9: {
     if (Words.get32(b, ((int) l0) - 58912) == l8) { break L9; }
     l9 = 0;
     if (l1 == 1L) { break L1; }
     if (Words.get32(b, ((int) (l0 + 4L)) - 58912) != l8) { break L1; }
     if (l6 == 0L) { break L1; }
     break L2;
    }
    if (!(l6 == 0L)) { break L2; }
    return 0;
   }
   throw State.trap();
  }
  L10: {
   if ((l10 = (int) b[((int) ((l5 = l4 + l6) + -1L)) - 58912]) >= 0) { break L10; }
   l0 = -2L;
   L11: {
    if ((b[((int) (l5 + -2L)) - 58912] & 0xff) + Integer.MIN_VALUE > -2147483457) { break L11; }
    l0 = ((b[((int) (l5 + -3L)) - 58912] & 0xff) + Integer.MIN_VALUE > -2147483457) ? -3L : -4L;
   }
   l10 = (l8 = (int) b[((int) (l5 = (l4 + l0) + l6)) - 58912]) & 255;
   if (l8 > -1) { break L10; }
   l9 = (b[((int) l5) - 58911] & 0xff) & 63;
   L12: {
    if (l8 + Integer.MIN_VALUE > 2147483615) { break L12; }
    l10 = ((l10 << 6) & 1984) | l9;
    break L10;
   }
   l11 = (b[((int) l5) - 58910] & 0xff) & 63;
   L13: {
    if (l8 + Integer.MIN_VALUE > 2147483631) { break L13; }
    l10 = ((l9 << 6) | ((l10 << 12) & 61440)) | l11;
    break L10;
   }
   l10 = ((l11 << 6) | ((l9 << 12) | ((l10 << 18) & 1835008))) | ((b[((int) l5) - 58909] & 0xff) & 63);
  }
  l5 = l3 + -1L;
  L14: while (true) {
   if ((l9 = (Words.get32(b, ((int) l2) - 58912) == l10) ? 1 : 0) != 0) { break L1; }
   l2 = l2 + 4L;
   l8 = (l5 != 0L) ? 1 : 0;
   l5 = l5 + -1L;
   if (l8 != 0) { continue L14; }
   break L14;
  }
 }
 return l9;
}

static int f171(State m, long l0, long l1, long l2, long l3) {
 final byte[] b = m.bytes;
 int l4 = 0;
 int l5 = 0;
 int l6 = 0;
 int l7 = 0;
 int l8 = 0;
 long l9 = 0;
 long l10 = 0;
 L1: {
  if (m.g0 < 16L) { break L1; }
  L2: {
   if (!(l3 == 0L)) { break L2; }
   return 0;
  }
  l4 = 0;
  L3: {
   if ((l5 = (int) b[((int) ((l9 = l2 + l3) + -1L)) - 58912]) >= 0) { break L3; }
   l10 = -2L;
   L4: {
    if ((b[((int) (l9 + -2L)) - 58912] & 0xff) + Integer.MIN_VALUE > -2147483457) { break L4; }
    l10 = ((b[((int) (l9 + -3L)) - 58912] & 0xff) + Integer.MIN_VALUE > -2147483457) ? -3L : -4L;
   }
   l5 = (l6 = (int) b[((int) (l3 = (l2 + l10) + l3)) - 58912]) & 255;
   if (l6 > -1) { break L3; }
   l7 = (b[((int) l3) - 58911] & 0xff) & 63;
   L5: {
    if (l6 + Integer.MIN_VALUE > 2147483615) { break L5; }
    l5 = ((l5 << 6) & 1984) | l7;
    break L3;
   }
   l8 = (b[((int) l3) - 58910] & 0xff) & 63;
   L6: {
    if (l6 + Integer.MIN_VALUE > 2147483631) { break L6; }
    l5 = ((l7 << 6) | ((l5 << 12) & 61440)) | l8;
    break L3;
   }
   l5 = ((l8 << 6) | ((l7 << 12) | ((l5 << 18) & 1835008))) | ((b[((int) l3) - 58909] & 0xff) & 63);
  }
  L7: {
   if (l1 == 0L) { break L7; }
   l3 = l1 + -1L;
   L8: while (true) {
    if ((l4 = (Words.get32(b, ((int) l0) - 58912) == l5) ? 1 : 0) != 0) { break L7; }
    l0 = l0 + 4L;
    l6 = (l3 != 0L) ? 1 : 0;
    l3 = l3 + -1L;
    if (l6 != 0) { continue L8; }
    break L8;
   }
  }
  final int t9 = l4;
  return t9;
 }
 throw State.trap();
}

static int f172(State m, long l0, long l1) {
 final byte[] b = m.bytes;
 long l2 = 0;
 long l3 = 0;
 int l4 = 0;
 int l5 = 0;
 int l6 = 0;
 int l7 = 0;
 L1: {
  if (m.g0 < 16L) { break L1; }
  L2: {
   if (!(l1 == 0L)) { break L2; }
   return 0;
  }
  L3: {
   if ((l4 = (int) b[((int) ((l2 = l0 + l1) + -1L)) - 58912]) >= 0) { break L3; }
   l3 = -2L;
   L4: {
    if ((b[((int) (l2 + -2L)) - 58912] & 0xff) + Integer.MIN_VALUE > -2147483457) { break L4; }
    l3 = ((b[((int) (l2 + -3L)) - 58912] & 0xff) + Integer.MIN_VALUE > -2147483457) ? -3L : -4L;
   }
   l4 = (l5 = (int) b[((int) (l1 = (l0 + l3) + l1)) - 58912]) & 255;
   if (l5 > -1) { break L3; }
   l6 = (b[((int) l1) - 58911] & 0xff) & 63;
   L5: {
    if (l5 + Integer.MIN_VALUE > 2147483615) { break L5; }
    l4 = ((l4 << 6) & 1984) | l6;
    break L3;
   }
   l7 = (b[((int) l1) - 58910] & 0xff) & 63;
   L6: {
    if (l5 + Integer.MIN_VALUE > 2147483631) { break L6; }
    l4 = ((l6 << 6) | ((l4 << 12) & 61440)) | l7;
    break L3;
   }
   l4 = ((l7 << 6) | ((l6 << 12) | ((l4 << 18) & 1835008))) | ((b[((int) l1) - 58909] & 0xff) & 63);
  }
  L7: {
   if (((l4 & -33) + -65) + Integer.MIN_VALUE >= -2147483622) { break L7; }
   return 1;
  }
  final int t8 = (((l4 + -48) + Integer.MIN_VALUE < -2147483638) | ((l4 + -65296) + Integer.MIN_VALUE < -2147483638)) ? 1 : 0;
  return t8;
 }
 throw State.trap();
}

static void f173(State m, long l0, long l1, long l2, long l3, long l4) {
 final byte[] b = m.bytes;
 int l5 = 0;
 int l6 = 0;
 int l7 = 0;
 int l8 = 0;
 long l9 = 0;
 L1: {
  L2: {
   L3: {
    if (m.g0 < 16L) { break L3; }
    L4: {
     if (!(l4 == 0L)) { break L4; }
     l1 = 0L;
     l2 = 1L;
     break L1;
    }
    l7 = l6 = (l5 = (int) b[((int) l3) - 58912]) & 255;
    L5: {
     if (l5 > -1) { break L5; }
     l7 = (b[((int) l3) - 58911] & 0xff) & 63;
     L6: {
      if (l5 + Integer.MIN_VALUE > 2147483615) { break L6; }
      l7 = ((l6 << 6) & 1984) | l7;
      break L5;
     }
     l8 = (b[((int) l3) - 58910] & 0xff) & 63;
     L7: {
      if (l5 + Integer.MIN_VALUE > 2147483631) { break L7; }
      l7 = ((l7 << 6) | ((l6 << 12) & 61440)) | l8;
      break L5;
     }
     l7 = ((l8 << 6) | ((l7 << 12) | ((l6 << 18) & 1835008))) | ((b[((int) l3) - 58909] & 0xff) & 63);
    }
    L8: while (true) {
     L9: {
      if (Words.get32(b, ((int) l1) - 58912) != l7) { break L9; }
      l2 = 0L;
      l3 = 0L;
      l1 = 0L;
      break L1;
     }
     l1 = l1 + 4L;
     if ((l2 = l2 + -1L) != 0L) { continue L8; }
     break L8;
    }
    l2 = 1L;
    L10: {
     L11: {
      if (l5 > -1) { break L11; }
      l7 = (b[((int) l3) - 58911] & 0xff) & 63;
      if (l5 + Integer.MIN_VALUE > 2147483615) { break L10; }
      l6 = ((l6 << 6) & 1984) | l7;
      l2 = 2L;
     }
     l1 = l4 - l2;
     l9 = l3 + l2;
     break L2;
    }
    l8 = (b[((int) l3) - 58910] & 0xff) & 63;
    L12: {
     L13: {
      if (l5 + Integer.MIN_VALUE > 2147483631) { break L13; }
      l6 = ((l7 << 6) | ((l6 << 12) & 61440)) | l8;
      l2 = 3L;
      break L12;
     }
     l6 = ((l8 << 6) | ((l7 << 12) | ((l6 << 18) & 1835008))) | ((b[((int) l3) - 58909] & 0xff) & 63);
     l2 = 4L;
    }
    l1 = l4 - l2;
    l9 = l3 + l2;
    if (l6 != 38065) { break L2; }
    l2 = 1L;
    l3 = l9;
    break L1;
   }
   throw State.trap();
  }
  l1 = ((l7 = (l6 == 37666) ? 1 : 0) != 0) ? l1 : l4;
  l3 = l7 != 0 ? l9 : l3;
  l2 = 1L;
 }
 Words.put64(b, ((int) l0) - 58912, l2);
 Words.put64(b, ((int) (l0 + 16L)) - 58912, l1);
 Words.put64(b, ((int) (l0 + 8L)) - 58912, l3);
}

static int f174(State m, int l0, int l1, long l2, long l3, long l4, long l5) {
 final byte[] b = m.bytes;
 int l6 = 0;
 int l7 = 0;
 int l8 = 0;
 L1: {
  if (m.g0 < 16L) { break L1; }
  l6 = (int) (((l1 & 65535) & 0xffffffffL) % 100L);
  l1 = 0;
  L2: {
   if ((l0 & 255) != 3) { break L2; }
   if (l6 != 0) { break L2; }
   if (l3 == 0L) { break L2; }
   l0 = (l6 = (int) b[((int) l2) - 58912]) & 255;
   L3: {
    if (l6 > -1) { break L3; }
    l7 = (b[((int) l2) - 58911] & 0xff) & 63;
    L4: {
     if (l6 + Integer.MIN_VALUE > 2147483615) { break L4; }
     l0 = ((l0 << 6) & 1984) | l7;
     break L3;
    }
    l8 = (b[((int) l2) - 58910] & 0xff) & 63;
    L5: {
     if (l6 + Integer.MIN_VALUE > 2147483631) { break L5; }
     l0 = ((l7 << 6) | ((l0 << 12) & 61440)) | l8;
     break L3;
    }
    l0 = ((l8 << 6) | ((l7 << 12) | ((l0 << 18) & 1835008))) | ((b[((int) l2) - 58909] & 0xff) & 63);
   }
   if (l5 == 0L) { break L2; }
   if (((l0 + -58) + Integer.MIN_VALUE < 2147483638) & ((l0 + -65306) + Integer.MIN_VALUE < 2147483638)) { break L2; }
   L6: {
    if ((l1 = (int) b[((int) l4) - 58912]) > -1) { break L6; }
    if (l1 + Integer.MIN_VALUE < 2147483616) { break L6; }
    l0 = l1 & 255;
    l6 = (b[((int) l4) - 58911] & 0xff) & 63;
    l7 = (b[((int) l4) - 58910] & 0xff) & 63;
    L7: {
     L8: {
      if (l1 + Integer.MIN_VALUE > 2147483631) { break L8; }
      l0 = ((l6 << 6) | ((l0 << 12) & 61440)) | l7;
      break L7;
     }
     l0 = ((l7 << 6) | ((l6 << 12) | ((l0 << 18) & 1835008))) | ((b[((int) l4) - 58909] & 0xff) & 63);
    }
    l1 = 1;
    L9: {
     if (l0 > 26468) { break L9; }
     if (l0 == 20358) { break L2; }
     if (l0 == 21069) { break L2; }
     if (l0 != 21382) { break L6; }
     break L2;
    }
    L10: {
     if (l0 > 38290) { break L10; }
     if (l0 == 26469) { break L2; }
     if (l0 != 27511) { break L6; }
     break L2;
    }
    if (l0 == 38291) { break L2; }
    if (l0 == 38388) { break L2; }
   }
   l1 = 0;
  }
  final int t11 = l1;
  return t11;
 }
 throw State.trap();
}

static int f175(State m, long l0, long l1) {
 final byte[] b = m.bytes;
 long l2 = 0;
 long l3 = 0;
 long l4 = 0;
 int l5 = 0;
 int l6 = 0;
 int l7 = 0;
 int l8 = 0;
 int l9 = 0;
 L1: {
  L2: {
   L3: {
    L4: {
     L5: {
      L6: {
       L7: {
        L8: {
         if ((l2 = m.g0) < 16L) { break L8; }
         L9: {
          if (!(l1 == 0L)) { break L9; }
          m.g0 = l2;
          return 0;
         }
         l5 = 0;
         L10: {
          if ((l6 = (int) b[((int) (l0 + (l3 = l1 + -1L))) - 58912]) >= 0) { break L10; }
          l3 = -2L;
          L11: {
           if ((b[((int) ((l4 = l0 + l1) + -2L)) - 58912] & 0xff) + Integer.MIN_VALUE > -2147483457) { break L11; }
           l3 = ((b[((int) (l4 + -3L)) - 58912] & 0xff) + Integer.MIN_VALUE > -2147483457) ? -3L : -4L;
          }
          l6 = (l7 = (int) b[((int) (l1 = l0 + (l3 = l3 + l1))) - 58912]) & 255;
          if (l7 > -1) { break L10; }
          l8 = (b[((int) l1) - 58911] & 0xff) & 63;
          L12: {
           if (l7 + Integer.MIN_VALUE > 2147483615) { break L12; }
           l6 = ((l6 << 6) & 1984) | l8;
           break L10;
          }
          l9 = (b[((int) l1) - 58910] & 0xff) & 63;
          L13: {
           if (l7 + Integer.MIN_VALUE > 2147483631) { break L13; }
           l6 = ((l8 << 6) | ((l6 << 12) & 61440)) | l9;
           break L10;
          }
          l6 = ((l9 << 6) | ((l8 << 12) | ((l6 << 18) & 1835008))) | ((b[((int) l1) - 58909] & 0xff) & 63);
         }
         L14: {
          L15: {
           L16: {
            L17: {
             L18: {
              L19: {
               L20: {
                L21: {
                 L22: {
                  L23: {
                   L24: {
                    L25: {
                     L26: {
                      L27: {
                       if (l6 > 27834) { break L27; }
                       L28: {
                        L29: {
                         if (l6 > 23541) { break L29; }
                         L30: {
                          if (l6 > 21381) { break L30; }
                          L31: {
                           switch (l6 + -20803) {
                           case 0: break L15;
                           case 1: case 2: case 3: case 4: case 5: break L3;
                           case 6: break L24;
                           default: break L31;
                           }
                          }
                          if (l6 == 20016) { break L23; }
                          if (l6 == 20048) { break L28; }
                          break L3;
                         }
                         if (l6 == 21382) { break L17; }
                         if (l6 == 22269) { break L14; }
                         if (l6 != 23453) { break L3; }
                         break L4;
                        }
                        L32: {
                         if (l6 > 26309) { break L32; }
                         if (l6 == 23542) { break L4; }
                         if (l6 == 24198) { break L5; }
                         if (l6 != 24950) { break L3; }
                         break L5;
                        }
                        L33: {
                         switch (l6 + -27491) {
                         case 0: break L26;
                         case 1: case 2: break L3;
                         case 3: break L20;
                         default: break L33;
                         }
                        }
                        if (l6 == 26310) { break L17; }
                        if (l6 != 27138) { break L3; }
                       }
                       if (l3 == 0L) { break L3; }
                       if (((int) b[((int) ((l1 = l0 + l3) + -1L)) - 58912]) > -1) { break L3; }
                       l4 = -2L;
                       L34: {
                        if ((b[((int) (l1 + -2L)) - 58912] & 0xff) + Integer.MIN_VALUE > -2147483457) { break L34; }
                        l4 = ((b[((int) (l1 + -3L)) - 58912] & 0xff) + Integer.MIN_VALUE > -2147483457) ? -3L : -4L;
                       }
                       if ((l6 = (int) b[((int) (l1 = (l0 + l4) + l3)) - 58912]) > -1) { break L3; }
                       if (l6 + Integer.MIN_VALUE < 2147483616) { break L3; }
                       l5 = l6 & 255;
                       l7 = (b[((int) l1) - 58911] & 0xff) & 63;
                       l8 = (b[((int) l1) - 58910] & 0xff) & 63;
                       if (l6 + Integer.MIN_VALUE > 2147483631) { break L19; }
                       l6 = ((l7 << 6) | ((l5 << 12) & 61440)) | l8;
                       break L18;
                      }
                      L35: {
                       L36: {
                        if (l6 > 32478) { break L36; }
                        L37: {
                         if (l6 > 31117) { break L37; }
                         if (l6 == 27835) { break L22; }
                         if (l6 == 29081) { break L35; }
                         if (l6 != 31087) { break L3; }
                         break L6;
                        }
                        if (l6 == 31118) { break L6; }
                        if (l6 == 32113) { break L21; }
                        if (l6 != 32210) { break L3; }
                        break L7;
                       }
                       L38: {
                        if (l6 > 35919) { break L38; }
                        L39: {
                         switch (l6 + -32479) {
                         case 0: break L21;
                         case 1: case 2: case 3: case 4: case 5: case 6: case 7: case 8: case 9: case 10: break L3;
                         case 11: break L7;
                         default: break L39;
                         }
                        }
                        switch (l6 + -35264) {
                        case 0: case 2: break L16;
                        default: break L3;
                        }
                       }
                       if (l6 == 35920) { break L23; }
                       if (l6 == 38534) { break L25; }
                       if (l6 == 38742) { break L5; }
                       break L3;
                      }
                      l6 = f171(m, 86032L, 1L, l0, l3);
                      m.g0 = l2;
                      final int t40 = l6;
                      return t40;
                     }
                     l6 = f171(m, 86036L, 1L, l0, l3);
                     m.g0 = l2;
                     final int t41 = l6;
                     return t41;
                    }
                    l6 = f171(m, 86040L, 1L, l0, l3);
                    m.g0 = l2;
                    final int t42 = l6;
                    return t42;
                   }
                   l6 = f171(m, 86044L, 1L, l0, l3);
                   m.g0 = l2;
                   final int t43 = l6;
                   return t43;
                  }
                  if (l3 == 0L) { break L3; }
                  if (((int) b[((int) ((l1 = l0 + l3) + -1L)) - 58912]) > -1) { break L3; }
                  l4 = -2L;
                  L44: {
                   if ((b[((int) (l1 + -2L)) - 58912] & 0xff) + Integer.MIN_VALUE > -2147483457) { break L44; }
                   l4 = ((b[((int) (l1 + -3L)) - 58912] & 0xff) + Integer.MIN_VALUE > -2147483457) ? -3L : -4L;
                  }
                  if ((l6 = (int) b[((int) (l1 = (l0 + l4) + l3)) - 58912]) > -1) { break L3; }
                  if (l6 + Integer.MIN_VALUE < 2147483616) { break L3; }
                  l5 = l6 & 255;
                  l7 = (b[((int) l1) - 58911] & 0xff) & 63;
                  l8 = (b[((int) l1) - 58910] & 0xff) & 63;
                  L45: {
                   L46: {
                    if (l6 + Integer.MIN_VALUE > 2147483631) { break L46; }
                    l6 = ((l7 << 6) | ((l5 << 12) & 61440)) | l8;
                    break L45;
                   }
                   l6 = ((l8 << 6) | ((l7 << 12) | ((l5 << 18) & 1835008))) | ((b[((int) l1) - 58909] & 0xff) & 63);
                  }
                  m.g0 = l2;
                  final int t47 = ((l6 == 21688) | (l6 == 20803)) ? 1 : 0;
                  return t47;
                 }
                 l6 = f171(m, 86048L, 3L, l0, l3);
                 m.g0 = l2;
                 final int t48 = l6;
                 return t48;
                }
                if (l3 == 0L) { break L3; }
                if (((int) b[((int) ((l1 = l0 + l3) + -1L)) - 58912]) > -1) { break L3; }
                l4 = -2L;
                L49: {
                 if ((b[((int) (l1 + -2L)) - 58912] & 0xff) + Integer.MIN_VALUE > -2147483457) { break L49; }
                 l4 = ((b[((int) (l1 + -3L)) - 58912] & 0xff) + Integer.MIN_VALUE > -2147483457) ? -3L : -4L;
                }
                if ((l6 = (int) b[((int) (l1 = (l0 + l4) + l3)) - 58912]) > -1) { break L3; }
                if (l6 + Integer.MIN_VALUE < 2147483616) { break L3; }
                l5 = l6 & 255;
                l7 = (b[((int) l1) - 58911] & 0xff) & 63;
                l8 = (b[((int) l1) - 58910] & 0xff) & 63;
                L50: {
                 L51: {
                  if (l6 + Integer.MIN_VALUE > 2147483631) { break L51; }
                  l6 = ((l7 << 6) | ((l5 << 12) & 61440)) | l8;
                  break L50;
                 }
                 l6 = ((l8 << 6) | ((l7 << 12) | ((l5 << 18) & 1835008))) | ((b[((int) l1) - 58909] & 0xff) & 63);
                }
                m.g0 = l2;
                final int t52 = ((l6 == 23459) | (l6 == 27491)) ? 1 : 0;
                return t52;
               }
               l6 = f171(m, 86060L, 2L, l0, l3);
               m.g0 = l2;
               final int t53 = l6;
               return t53;
              }
              l6 = ((l8 << 6) | ((l7 << 12) | ((l5 << 18) & 1835008))) | ((b[((int) l1) - 58909] & 0xff) & 63);
             }
             m.g0 = l2;
             final int t54 = (l6 == 27704) ? 1 : 0;
             return t54;
            }
            if (l3 == 0L) { break L3; }
            L55: {
             if (((int) b[((int) ((l1 = l0 + l3) + -1L)) - 58912]) > -1) { break L55; }
             l4 = -2L;
             L56: {
              if ((b[((int) (l1 + -2L)) - 58912] & 0xff) + Integer.MIN_VALUE > -2147483457) { break L56; }
              l4 = ((b[((int) (l1 + -3L)) - 58912] & 0xff) + Integer.MIN_VALUE > -2147483457) ? -3L : -4L;
             }
             if ((l6 = (int) b[((int) (l1 = (l0 + l4) + l3)) - 58912]) > -1) { break L55; }
             if (l6 + Integer.MIN_VALUE < 2147483616) { break L55; }
             l5 = l6 & 255;
             l7 = (b[((int) l1) - 58911] & 0xff) & 63;
             l8 = (b[((int) l1) - 58910] & 0xff) & 63;
             L57: {
              L58: {
               if (l6 + Integer.MIN_VALUE > 2147483631) { break L58; }
               l6 = ((l7 << 6) | ((l5 << 12) & 61440)) | l8;
               break L57;
              }
              l6 = ((l8 << 6) | ((l7 << 12) | ((l5 << 18) & 1835008))) | ((b[((int) l1) - 58909] & 0xff) & 63);
             }
             l5 = 1;
             L59: {
              if (l6 > 24197) { break L59; }
              if (l6 == 19975) { break L3; }
              if (l6 == 22823) { break L3; }
              break L55;
             }
             if (l6 == 24198) { break L3; }
             if (l6 == 24950) { break L3; }
             if (l6 == 33836) { break L3; }
            }
            m.g0 = l2;
            return 0;
           }
           if (l3 == 0L) { break L3; }
           if (((int) b[((int) ((l1 = l0 + l3) + -1L)) - 58912]) > -1) { break L3; }
           l4 = -2L;
           L60: {
            if ((b[((int) (l1 + -2L)) - 58912] & 0xff) + Integer.MIN_VALUE > -2147483457) { break L60; }
            l4 = ((b[((int) (l1 + -3L)) - 58912] & 0xff) + Integer.MIN_VALUE > -2147483457) ? -3L : -4L;
           }
           if ((l6 = (int) b[((int) (l1 = (l0 + l4) + l3)) - 58912]) > -1) { break L3; }
           if (l6 + Integer.MIN_VALUE < 2147483616) { break L3; }
           l5 = l6 & 255;
           l7 = (b[((int) l1) - 58911] & 0xff) & 63;
           l8 = (b[((int) l1) - 58910] & 0xff) & 63;
           L61: {
            L62: {
             if (l6 + Integer.MIN_VALUE > 2147483631) { break L62; }
             l6 = ((l7 << 6) | ((l5 << 12) & 61440)) | l8;
             break L61;
            }
            l6 = ((l8 << 6) | ((l7 << 12) | ((l5 << 18) & 1835008))) | ((b[((int) l1) - 58909] & 0xff) & 63);
           }
           m.g0 = l2;
           final int t63 = (((l6 + -35998) & -129) == 0) ? 1 : 0;
           return t63;
          }
          l6 = f171(m, 86068L, 2L, l0, l3);
          m.g0 = l2;
          final int t64 = l6;
          return t64;
         }
         l6 = f171(m, 85984L, 1L, l0, l3);
         m.g0 = l2;
         final int t65 = l6;
         return t65;
        }
        throw State.trap();
       }
       if (l3 == 0L) { break L3; }
       if (((int) b[((int) ((l1 = l0 + l3) + -1L)) - 58912]) > -1) { break L3; }
       l4 = -2L;
       L66: {
        if ((b[((int) (l1 + -2L)) - 58912] & 0xff) + Integer.MIN_VALUE > -2147483457) { break L66; }
        l4 = ((b[((int) (l1 + -3L)) - 58912] & 0xff) + Integer.MIN_VALUE > -2147483457) ? -3L : -4L;
       }
       if ((l6 = (int) b[((int) (l1 = (l0 + l4) + l3)) - 58912]) > -1) { break L3; }
       if (l6 + Integer.MIN_VALUE < 2147483616) { break L3; }
       l5 = l6 & 255;
       l7 = (b[((int) l1) - 58911] & 0xff) & 63;
       l8 = (b[((int) l1) - 58910] & 0xff) & 63;
       L67: {
        L68: {
         if (l6 + Integer.MIN_VALUE > 2147483631) { break L68; }
         l6 = ((l7 << 6) | ((l5 << 12) & 61440)) | l8;
         break L67;
        }
        l6 = ((l8 << 6) | ((l7 << 12) | ((l5 << 18) & 1835008))) | ((b[((int) l1) - 58909] & 0xff) & 63);
       }
       m.g0 = l2;
       final int t69 = (l6 == 20809) ? 1 : 0;
       return t69;
      }
      if (l3 == 0L) { break L3; }
      if (((int) b[((int) ((l1 = l0 + l3) + -1L)) - 58912]) > -1) { break L3; }
      l4 = -2L;
      L70: {
       if ((b[((int) (l1 + -2L)) - 58912] & 0xff) + Integer.MIN_VALUE > -2147483457) { break L70; }
       l4 = ((b[((int) (l1 + -3L)) - 58912] & 0xff) + Integer.MIN_VALUE > -2147483457) ? -3L : -4L;
      }
      if ((l6 = (int) b[((int) (l1 = (l0 + l4) + l3)) - 58912]) > -1) { break L3; }
      if (l6 + Integer.MIN_VALUE < 2147483616) { break L3; }
      l5 = l6 & 255;
      l7 = (b[((int) l1) - 58911] & 0xff) & 63;
      l8 = (b[((int) l1) - 58910] & 0xff) & 63;
      L71: {
       L72: {
        if (l6 + Integer.MIN_VALUE > 2147483631) { break L72; }
        l6 = ((l7 << 6) | ((l5 << 12) & 61440)) | l8;
        break L71;
       }
       l6 = ((l8 << 6) | ((l7 << 12) | ((l5 << 18) & 1835008))) | ((b[((int) l1) - 58909] & 0xff) & 63);
      }
      m.g0 = l2;
      final int t73 = (l6 == 23815) ? 1 : 0;
      return t73;
     }
     if (l3 == 0L) { break L3; }
     if (((int) b[((int) ((l1 = l0 + l3) + -1L)) - 58912]) > -1) { break L3; }
     l4 = -2L;
     L74: {
      if ((b[((int) (l1 + -2L)) - 58912] & 0xff) + Integer.MIN_VALUE > -2147483457) { break L74; }
      l4 = ((b[((int) (l1 + -3L)) - 58912] & 0xff) + Integer.MIN_VALUE > -2147483457) ? -3L : -4L;
     }
     if ((l6 = (int) b[((int) (l1 = (l0 + l4) + l3)) - 58912]) > -1) { break L3; }
     if (l6 + Integer.MIN_VALUE < 2147483616) { break L3; }
     l5 = l6 & 255;
     l7 = (b[((int) l1) - 58911] & 0xff) & 63;
     l8 = (b[((int) l1) - 58910] & 0xff) & 63;
     L75: {
      L76: {
       if (l6 + Integer.MIN_VALUE > 2147483631) { break L76; }
       l6 = ((l7 << 6) | ((l5 << 12) & 61440)) | l8;
       break L75;
      }
      l6 = ((l8 << 6) | ((l7 << 12) | ((l5 << 18) & 1835008))) | ((b[((int) l1) - 58909] & 0xff) & 63);
     }
     m.g0 = l2;
     final int t77 = (l6 == 22025) ? 1 : 0;
     return t77;
    }
    if (l3 == 0L) { break L3; }
    if (((int) b[((int) ((l1 = l0 + l3) + -1L)) - 58912]) > -1) { break L3; }
    l4 = -2L;
    L78: {
     if ((b[((int) (l1 + -2L)) - 58912] & 0xff) + Integer.MIN_VALUE > -2147483457) { break L78; }
     l4 = ((b[((int) (l1 + -3L)) - 58912] & 0xff) + Integer.MIN_VALUE > -2147483457) ? -3L : -4L;
    }
    if ((l6 = (int) b[((int) (l1 = (l0 + l4) + l3)) - 58912]) > -1) { break L3; }
    if (l6 + Integer.MIN_VALUE < 2147483616) { break L3; }
    l5 = l6 & 255;
    l7 = (b[((int) l1) - 58911] & 0xff) & 63;
    l8 = (b[((int) l1) - 58910] & 0xff) & 63;
    if (l6 + Integer.MIN_VALUE > 2147483631) { break L2; }
    l6 = ((l7 << 6) | ((l5 << 12) & 61440)) | l8;
    break L1;
   }
   m.g0 = l2;
   final int t79 = l5;
   return t79;
  }
  l6 = ((l8 << 6) | ((l7 << 12) | ((l5 << 18) & 1835008))) | ((b[((int) l1) - 58909] & 0xff) & 63);
 }
 m.g0 = l2;
 return (l6 == 22825) ? 1 : 0;
}

static int f176(State m, long l0, long l1) {
 final byte[] b = m.bytes;
 long l2 = 0;
 long l3 = 0;
 long l4 = 0;
 int l5 = 0;
 int l6 = 0;
 int l7 = 0;
 int l8 = 0;
 int l9 = 0;
 L1: {
  L2: {
   if (m.g0 < 16L) { break L2; }
   L3: {
    if (!(l1 == 0L)) { break L3; }
    return 0;
   }
   l2 = -41L;
   L4: while (true) {
    l5 = 0;
    L5: {
     if ((l6 = (int) b[((int) (l0 + (l1 = (l3 = l1) + -1L))) - 58912]) >= 0) { break L5; }
     l1 = -2L;
     L6: {
      if ((b[((int) ((l4 = l0 + l3) + -2L)) - 58912] & 0xff) + Integer.MIN_VALUE > -2147483457) { break L6; }
      l1 = ((b[((int) (l4 + -3L)) - 58912] & 0xff) + Integer.MIN_VALUE > -2147483457) ? -3L : -4L;
     }
     l6 = (l7 = (int) b[((int) (l3 = l0 + (l1 = l1 + l3))) - 58912]) & 255;
     if (l7 > -1) { break L5; }
     l8 = (b[((int) l3) - 58911] & 0xff) & 63;
     L7: {
      if (l7 + Integer.MIN_VALUE > 2147483615) { break L7; }
      l6 = ((l6 << 6) & 1984) | l8;
      break L5;
     }
     l9 = (b[((int) l3) - 58910] & 0xff) & 63;
     L8: {
      if (l7 + Integer.MIN_VALUE > 2147483631) { break L8; }
      l6 = ((l8 << 6) | ((l6 << 12) & 61440)) | l9;
      break L5;
     }
     l6 = ((l9 << 6) | ((l8 << 12) | ((l6 << 18) & 1835008))) | ((b[((int) l3) - 58909] & 0xff) & 63);
    }
    if ((l2 = l2 + 1L) == 0L) { break L1; }
    L9: {
     if (l6 != 12298) { break L9; }
     l5 = 1;
     break L1;
    }
    L10: {
     if ((l6 + -19968) + Integer.MIN_VALUE < -2147462656) { break L10; }
     if ((l6 + -48) + Integer.MIN_VALUE < -2147483638) { break L10; }
     if ((l6 + -65296) + Integer.MIN_VALUE < -2147483638) { break L10; }
     if (((l6 & -33) + -65) + Integer.MIN_VALUE < -2147483622) { break L10; }
     L11: {
      if (l6 + Integer.MIN_VALUE > -2147483602) { break L11; }
      if (((1L << (l6 & 0xffffffffL)) & 123149597278208L) != 0L) { break L10; }
     }
     L12: {
      switch (l6 + -12289) {
      case 0: case 6: break L10;
      case 1: case 2: case 3: case 4: case 5: break L1;
      default: break L12;
      }
     }
     if (l6 != 65292) { break L1; }
    }
    if (!(l1 == 0L)) { continue L4; }
    break L1;
   }
  }
  throw State.trap();
 }
 return l5;
}

static int f177(State m, long l0, long l1, long l2, long l3) {
 final byte[] b = m.bytes;
 long l4 = 0;
 long l5 = 0;
 long l6 = 0;
 long l7 = 0;
 int l8 = 0;
 int l9 = 0;
 int l10 = 0;
 int l11 = 0;
 int l12 = 0;
 L1: {
  L2: {
   L3: {
    L4: {
     L5: {
      if ((l4 = m.g0) < 16L) { break L5; }
      L6: {
       if (f170(m, 83504L, 1L, 86096L, 7L, l0, l1) == 0) { break L6; }
       if (f178(m, l2, l3) != 0) { break L6; }
       m.g0 = l4;
       return 1;
      }
      l8 = 0;
      if (l1 == 0L) { break L1; }
      if (((int) b[((int) ((l5 = l0 + l1) + -1L)) - 58912]) > -1) { break L1; }
      l6 = -2L;
      L7: {
       if ((b[((int) (l5 + -2L)) - 58912] & 0xff) + Integer.MIN_VALUE > -2147483457) { break L7; }
       l6 = ((b[((int) (l5 + -3L)) - 58912] & 0xff) + Integer.MIN_VALUE > -2147483457) ? -3L : -4L;
      }
      if ((l9 = (int) b[((int) (l6 = l0 + (l7 = l6 + l1))) - 58912]) > -1) { break L2; }
      if (l9 + Integer.MIN_VALUE < 2147483616) { break L2; }
      l10 = l9 & 255;
      l11 = (b[((int) l6) - 58911] & 0xff) & 63;
      l12 = (b[((int) l6) - 58910] & 0xff) & 63;
      L8: {
       L9: {
        if (l9 + Integer.MIN_VALUE > 2147483631) { break L9; }
        l9 = ((l11 << 6) | ((l10 << 12) & 61440)) | l12;
        break L8;
       }
       l9 = ((l12 << 6) | ((l11 << 12) | ((l10 << 18) & 1835008))) | ((b[((int) l6) - 58909] & 0xff) & 63);
      }
      if (l9 != 19968) { break L2; }
      if (f179(m, l0, l7) == 0) { break L2; }
      if (f178(m, l2, l3) != 0) { break L2; }
      if (l3 == 0L) { break L3; }
      if ((l9 = (int) b[((int) l2) - 58912]) > -1) { break L3; }
      if (l9 + Integer.MIN_VALUE < 2147483616) { break L3; }
      l10 = l9 & 255;
      l11 = (b[((int) l2) - 58911] & 0xff) & 63;
      l12 = (b[((int) l2) - 58910] & 0xff) & 63;
      L10: {
       L11: {
        if (l9 + Integer.MIN_VALUE > 2147483631) { break L11; }
        l9 = ((l11 << 6) | ((l10 << 12) & 61440)) | l12;
        break L10;
       }
       l9 = ((l12 << 6) | ((l11 << 12) | ((l10 << 18) & 1835008))) | ((b[((int) l2) - 58909] & 0xff) & 63);
      }
      L12: {
       L13: {
        if (l9 > 26019) { break L13; }
        L14: {
         if (l9 > 21543) { break L14; }
         L15: {
          if (l9 > 21314) { break L15; }
          L16: {
           if (l9 > 20802) { break L16; }
           if (l9 == 20137) { break L2; }
           if (l9 == 20239) { break L2; }
           if (l9 != 20493) { break L3; }
           break L2;
          }
          if ((l9 = l9 + -20803) + Integer.MIN_VALUE > -2147483607) { break L3; }
          if (((1L << (l9 & 0xffffffffL)) & 2199023255817L) == 0L) { break L3; }
          break L2;
         }
         L17: {
          switch (l9 + -21315) {
          case 0: case 4: break L2;
          case 1: case 2: case 3: break L3;
          default: break L17;
          }
         }
         if (l9 == 21400) { break L2; }
         if (l9 != 21515) { break L3; }
         break L2;
        }
        L18: {
         if (l9 > 23609) { break L18; }
         L19: {
          if (l9 > 22277) { break L19; }
          if (l9 == 21544) { break L2; }
          if (l9 != 22136) { break L3; }
          break L2;
         }
         switch (l9 + -22278) {
         case 0: case 13: break L2;
         case 1: case 2: case 3: case 4: case 5: case 6: case 7: case 8: case 9: case 10: case 11: case 12: break L3;
         default: break L12;
         }
        }
        L20: {
         if (l9 > 24178) { break L20; }
         if (l9 == 23610) { break L2; }
         if (l9 != 23681) { break L3; }
         break L2;
        }
        if (l9 == 24179) { break L2; }
        if (l9 == 24230) { break L2; }
        if (l9 != 24494) { break L3; }
        break L2;
       }
       L21: {
        if (l9 > 30044) { break L21; }
        L22: {
         if (l9 > 28022) { break L22; }
         L23: {
          if (l9 > 27471) { break L23; }
          if (l9 == 26020) { break L2; }
          if (l9 != 27431) { break L3; }
          break L2;
         }
         if (l9 == 27472) { break L2; }
         if (l9 == 27506) { break L2; }
         if (l9 != 27627) { break L3; }
         break L2;
        }
        L24: {
         if (l9 > 29614) { break L24; }
         if (l9 == 28023) { break L2; }
         if (l9 == 28207) { break L2; }
         if (l9 != 29256) { break L3; }
         break L2;
        }
        if (l9 == 29615) { break L2; }
        if (l9 == 29872) { break L2; }
        if (l9 != 29926) { break L3; }
        break L2;
       }
       L25: {
        if (l9 > 32422) { break L25; }
        L26: {
         if (l9 > 31434) { break L26; }
         if (l9 == 30045) { break L2; }
         if (l9 != 31186) { break L3; }
         break L2;
        }
        if (l9 == 31435) { break L2; }
        if (l9 == 31859) { break L2; }
        if (l9 != 32026) { break L3; }
        break L2;
       }
       if (l9 > 37323) { break L4; }
       if (l9 == 32423) { break L2; }
       if (l9 == 32654) { break L2; }
       if (l9 == 33521) { break L2; }
       break L3;
      }
      if (l9 != 23544) { break L3; }
      break L2;
     }
     throw State.trap();
    }
    switch (l9 + -37324) {
    case 0: case 4: break L2;
    default: break L3;
    }
   }
   if (f157(m, 86172L, 4L, 86188L, 4L, l2, l3) != 0) { break L2; }
   m.g0 = l4;
   return 1;
  }
  l6 = -2L;
  L27: {
   if ((b[((int) (l5 + -2L)) - 58912] & 0xff) + Integer.MIN_VALUE > -2147483457) { break L27; }
   l6 = ((b[((int) (l5 + -3L)) - 58912] & 0xff) + Integer.MIN_VALUE > -2147483457) ? -3L : -4L;
  }
  if ((l9 = (int) b[((int) (l5 = (l0 + l6) + l1)) - 58912]) > -1) { break L1; }
  if (l9 + Integer.MIN_VALUE < 2147483616) { break L1; }
  l10 = l9 & 255;
  l11 = (b[((int) l5) - 58911] & 0xff) & 63;
  l12 = (b[((int) l5) - 58910] & 0xff) & 63;
  L28: {
   L29: {
    if (l9 + Integer.MIN_VALUE > 2147483631) { break L29; }
    l9 = ((l11 << 6) | ((l10 << 12) & 61440)) | l12;
    break L28;
   }
   l9 = ((l12 << 6) | ((l11 << 12) | ((l10 << 18) & 1835008))) | ((b[((int) l5) - 58909] & 0xff) & 63);
  }
  if (l9 != 19968) { break L1; }
  L30: {
   L31: {
    if ((l9 = (int) b[((int) l0) - 58912]) <= -1) { break L31; }
    l0 = 1L;
    break L30;
   }
   L32: {
    if (l9 + Integer.MIN_VALUE >= 2147483616) { break L32; }
    l0 = 2L;
    break L30;
   }
   l0 = (l9 + Integer.MIN_VALUE < 2147483632) ? 3L : 4L;
  }
  if (l1 == l0) { break L1; }
  if (l3 == 0L) { break L1; }
  L33: {
   if ((l8 = (int) b[((int) l2) - 58912]) > -1) { break L33; }
   if (l8 + Integer.MIN_VALUE < 2147483616) { break L33; }
   l9 = l8 & 255;
   l10 = (b[((int) l2) - 58911] & 0xff) & 63;
   l11 = (b[((int) l2) - 58910] & 0xff) & 63;
   L34: {
    L35: {
     if (l8 + Integer.MIN_VALUE > 2147483631) { break L35; }
     l9 = ((l10 << 6) | ((l9 << 12) & 61440)) | l11;
     break L34;
    }
    l9 = ((l11 << 6) | ((l10 << 12) | ((l9 << 18) & 1835008))) | ((b[((int) l2) - 58909] & 0xff) & 63);
   }
   l8 = 1;
   L36: {
    if (l9 > 24458) { break L36; }
    if (l9 == 20849) { break L1; }
    if (l9 != 23450) { break L33; }
    break L1;
   }
   if (l9 == 24459) { break L1; }
   if (l9 == 26086) { break L1; }
   if (l9 == 30452) { break L1; }
  }
  l8 = 0;
 }
 m.g0 = l4;
 return l8;
}

static int f178(State m, long l0, long l1) {
 final byte[] b = m.bytes;
 long l2 = 0;
 int l3 = 0;
 int l4 = 0;
 int l5 = 0;
 int l6 = 0;
 int l7 = 0;
 L1: {
  L2: {
   L3: {
    L4: {
     if ((l2 = m.g0) < 16L) { break L4; }
     l3 = 1;
     if (l1 == 0L) { break L1; }
     if ((l4 = (int) b[((int) l0) - 58912]) > -1) { break L1; }
     l5 = l4 & 255;
     l6 = (b[((int) l0) - 58911] & 0xff) & 63;
     L5: {
      L6: {
       if (l4 + Integer.MIN_VALUE > 2147483615) { break L6; }
       l6 = ((l5 << 6) & 1984) | l6;
       break L5;
      }
      l7 = (b[((int) l0) - 58910] & 0xff) & 63;
      L7: {
       if (l4 + Integer.MIN_VALUE > 2147483631) { break L7; }
       l6 = ((l6 << 6) | ((l5 << 12) & 61440)) | l7;
       break L5;
      }
      l6 = ((l7 << 6) | ((l6 << 12) | ((l5 << 18) & 1835008))) | ((b[((int) l0) - 58909] & 0xff) & 63);
     }
     if ((l6 + -19968) + Integer.MIN_VALUE > -2147462657) { break L1; }
     if (l4 + Integer.MIN_VALUE < 2147483616) { break L2; }
     l6 = (b[((int) l0) - 58911] & 0xff) & 63;
     l7 = (b[((int) l0) - 58910] & 0xff) & 63;
     L8: {
      L9: {
       if (l4 + Integer.MIN_VALUE > 2147483631) { break L9; }
       l4 = ((l6 << 6) | ((l5 << 12) & 61440)) | l7;
       break L8;
      }
      l4 = ((l7 << 6) | ((l6 << 12) | ((l5 << 18) & 1835008))) | ((b[((int) l0) - 58909] & 0xff) & 63);
     }
     L10: {
      if (l4 > 21965) { break L10; }
      L11: {
       if (l4 > 20196) { break L11; }
       if ((l5 = l4 + -20040) + Integer.MIN_VALUE > -2147483586) { break L3; }
       if (((1L << (l5 & 0xffffffffL)) & 4611686018435776521L) == 0L) { break L3; }
       break L1;
      }
      L12: {
       if (l4 > 21601) { break L12; }
       L13: {
        switch (l4 + -21527) {
        case 0: case 16: break L1;
        case 1: case 2: case 3: case 4: case 5: case 6: case 7: case 8: case 9: case 10: case 11: case 12: case 13: case 14: case 15: break L2;
        default: break L13;
        }
       }
       if (l4 != 20197) { break L2; }
       break L1;
      }
      if (l4 == 21602) { break L1; }
      if (l4 == 21644) { break L1; }
      if (l4 != 21834) { break L2; }
      break L1;
     }
     L14: {
      if (l4 > 30339) { break L14; }
      L15: {
       if (l4 > 23600) { break L15; }
       if (l4 == 21966) { break L1; }
       if (l4 != 22043) { break L2; }
       break L1;
      }
      if (l4 == 23601) { break L1; }
      if (l4 == 24038) { break L1; }
      if (l4 != 25110) { break L2; }
      break L1;
     }
     L16: {
      if (l4 > 36995) { break L16; }
      if (l4 == 30340) { break L1; }
      if (l4 == 33287) { break L1; }
      if (l4 != 36824) { break L2; }
      break L1;
     }
     if (l4 == 36996) { break L1; }
     if (l4 == 37117) { break L1; }
     if (l4 == 40636) { break L1; }
     break L2;
    }
    throw State.trap();
   }
   if (l4 == 19982) { break L1; }
  }
  l3 = f157(m, 85972L, 2L, 86124L, 12L, l0, l1);
 }
 m.g0 = l2;
 return l3;
}

static int f179(State m, long l0, long l1) {
 final byte[] b = m.bytes;
 long l2 = 0;
 long l3 = 0;
 long l4 = 0;
 int l5 = 0;
 int l6 = 0;
 int l7 = 0;
 int l8 = 0;
 int l9 = 0;
 int l10 = 0;
 int l11 = 0;
 m.g0 = l2 = m.g0 - 16L;
 L1: {
  L2: {
   L3: {
    if ((l2 = l2) < 16L) { break L3; }
    L4: {
     if (l1 == 0L) { break L4; }
     L5: {
      if ((l5 = (int) b[((int) (l0 + (l3 = l1 + -1L))) - 58912]) >= 0) { break L5; }
      l3 = -2L;
      L6: {
       if ((b[((int) ((l4 = l0 + l1) + -2L)) - 58912] & 0xff) + Integer.MIN_VALUE > -2147483457) { break L6; }
       l3 = ((b[((int) (l4 + -3L)) - 58912] & 0xff) + Integer.MIN_VALUE > -2147483457) ? -3L : -4L;
      }
      l5 = (l6 = (int) b[((int) (l1 = l0 + (l3 = l3 + l1))) - 58912]) & 255;
      if (l6 > -1) { break L5; }
      l7 = (b[((int) l1) - 58911] & 0xff) & 63;
      L7: {
       if (l6 + Integer.MIN_VALUE > 2147483615) { break L7; }
       l5 = ((l5 << 6) & 1984) | l7;
       break L5;
      }
      l8 = (b[((int) l1) - 58910] & 0xff) & 63;
      L8: {
       if (l6 + Integer.MIN_VALUE > 2147483631) { break L8; }
       l5 = ((l7 << 6) | ((l5 << 12) & 61440)) | l8;
       break L5;
      }
      l5 = ((l8 << 6) | ((l7 << 12) | ((l5 << 18) & 1835008))) | ((b[((int) l1) - 58909] & 0xff) & 63);
     }
     L9: {
      if ((l6 = (l5 == 40670) ? 1 : 0) != 0) { break L9; }
      if (l5 == 28857) { break L9; }
      l5 = ((l5 == 28857) ? 1 : 0) | l6;
      break L1;
     }
     if (l3 == 0L) { break L4; }
     L10: {
      if ((l6 = (int) b[((int) (l0 + (l1 = l3 + -1L))) - 58912]) >= 0) { break L10; }
      l1 = -2L;
      L11: {
       if ((b[((int) ((l4 = l0 + l3) + -2L)) - 58912] & 0xff) + Integer.MIN_VALUE > -2147483457) { break L11; }
       l1 = ((b[((int) (l4 + -3L)) - 58912] & 0xff) + Integer.MIN_VALUE > -2147483457) ? -3L : -4L;
      }
      l6 = (l5 = (int) b[((int) (l3 = l0 + (l1 = l1 + l3))) - 58912]) & 255;
      if (l5 > -1) { break L10; }
      l7 = (b[((int) l3) - 58911] & 0xff) & 63;
      L12: {
       if (l5 + Integer.MIN_VALUE > 2147483615) { break L12; }
       l6 = ((l6 << 6) & 1984) | l7;
       break L10;
      }
      l8 = (b[((int) l3) - 58910] & 0xff) & 63;
      L13: {
       if (l5 + Integer.MIN_VALUE > 2147483631) { break L13; }
       l6 = ((l7 << 6) | ((l6 << 12) & 61440)) | l8;
       break L10;
      }
      l6 = ((l8 << 6) | ((l7 << 12) | ((l6 << 18) & 1835008))) | ((b[((int) l3) - 58909] & 0xff) & 63);
     }
     L14: {
      L15: {
       L16: {
        L17: {
         L18: {
          if (l1 == 0L) { break L18; }
          L19: {
           if ((l7 = (int) b[((int) (l0 + (l3 = l1 + -1L))) - 58912]) >= 0) { break L19; }
           l3 = -2L;
           L20: {
            if ((b[((int) ((l4 = l0 + l1) + -2L)) - 58912] & 0xff) + Integer.MIN_VALUE > -2147483457) { break L20; }
            l3 = ((b[((int) (l4 + -3L)) - 58912] & 0xff) + Integer.MIN_VALUE > -2147483457) ? -3L : -4L;
           }
           l7 = (l5 = (int) b[((int) (l1 = l0 + (l3 = l3 + l1))) - 58912]) & 255;
           if (l5 > -1) { break L19; }
           l8 = (b[((int) l1) - 58911] & 0xff) & 63;
           L21: {
            if (l5 + Integer.MIN_VALUE > 2147483615) { break L21; }
            l7 = ((l7 << 6) & 1984) | l8;
            break L19;
           }
           l9 = (b[((int) l1) - 58910] & 0xff) & 63;
           L22: {
            if (l5 + Integer.MIN_VALUE > 2147483631) { break L22; }
            l7 = ((l8 << 6) | ((l7 << 12) & 61440)) | l9;
            break L19;
           }
           l7 = ((l9 << 6) | ((l8 << 12) | ((l7 << 18) & 1835008))) | ((b[((int) l1) - 58909] & 0xff) & 63);
          }
          if (l3 == 0L) { break L15; }
          l5 = 0;
          if (((int) b[((int) ((l1 = l0 + l3) + -1L)) - 58912]) > -1) { break L1; }
          l4 = -2L;
          L23: {
           if ((b[((int) (l1 + -2L)) - 58912] & 0xff) + Integer.MIN_VALUE > -2147483457) { break L23; }
           l4 = ((b[((int) (l1 + -3L)) - 58912] & 0xff) + Integer.MIN_VALUE > -2147483457) ? -3L : -4L;
          }
          if ((l8 = (int) b[((int) (l1 = l0 + (l3 = l4 + l3))) - 58912]) > -1) { break L1; }
          if (l8 + Integer.MIN_VALUE < 2147483616) { break L1; }
          l9 = l8 & 255;
          l10 = (b[((int) l1) - 58911] & 0xff) & 63;
          l11 = (b[((int) l1) - 58910] & 0xff) & 63;
          if (l8 + Integer.MIN_VALUE > 2147483631) { break L17; }
          l8 = ((l10 << 6) | ((l9 << 12) & 61440)) | l11;
          break L16;
         }
         Core2.f63(m, l2, l6);
         L24: {
          L25: {
           if ((l6 + -58) + Integer.MIN_VALUE > 2147483637) { break L25; }
           if (((b[((int) l2) - 58912] & 0xff) & 255) == 1) { break L24; }
          }
          l5 = (l6 == 21313) ? 1 : 0;
          break L1;
         }
         l5 = (((l6 != 12295) & (l6 != 38646)) | (l6 == 21313)) ? 1 : 0;
         break L1;
        }
        l8 = ((l11 << 6) | ((l10 << 12) | ((l9 << 18) & 1835008))) | ((b[((int) l1) - 58909] & 0xff) & 63);
       }
       if (l3 != 0L) { break L1; }
       if (l8 != 20108) { break L1; }
       if (l7 != 21313) { break L1; }
       l5 = 1;
       switch (l6 + -19968) {
       case 0: case 9: break L1;
       case 1: case 2: case 3: case 4: case 5: case 6: case 7: case 8: break L4;
       default: break L14;
       }
      }
      l5 = 0;
      L26: {
       if (l7 > 20840) { break L26; }
       if (l7 == 20004) { break L2; }
       if (l7 != 20108) { break L1; }
       break L2;
      }
      if (l7 == 20841) { break L2; }
      if (l7 != 21313) { break L1; }
      Core2.f63(m, l2 + 8L, l6);
      if ((l6 + -58) + Integer.MIN_VALUE > 2147483637) { break L1; }
      if (((b[((int) l2) - 58904] & 0xff) & 255) != 1) { break L1; }
      l5 = ((l6 != 38646) & (l6 != 12295)) ? 1 : 0;
      break L1;
     }
     if (l6 == 20108) { break L1; }
     if (l6 == 22235) { break L1; }
    }
    l5 = 0;
    break L1;
   }
   throw State.trap();
  }
  l5 = (l6 == 21313) ? 1 : 0;
 }
 m.g0 = l2 + 16L;
 return l5;
}

static int f180_1(State m, long l0, long l1, long l2, long l3, long l6, long l7, long l8, long l9, int l10, int l11, int l12, int l13, int l14, int l15, int l16, int l17) {
 final byte[] b = m.bytes;
 int exit = 0;
 PART: {
  L4: {
   L5: {
    L6: {
     L7: {
      L8: {
       L9: {
        if ((l6 = m.g0) < 16L) { break L9; }
        L10: {
         L11: {
          if (l1 == 0L) { break L11; }
          L12: {
           if ((l10 = (int) b[((int) (l0 + (l7 = l1 + -1L))) - 58912]) >= 0) { break L12; }
           l7 = -2L;
           L13: {
            if ((b[((int) ((l8 = l0 + l1) + -2L)) - 58912] & 0xff) + Integer.MIN_VALUE > -2147483457) { break L13; }
            l7 = ((b[((int) (l8 + -3L)) - 58912] & 0xff) + Integer.MIN_VALUE > -2147483457) ? -3L : -4L;
           }
           l10 = (l11 = (int) b[((int) (l8 = l0 + (l7 = l7 + l1))) - 58912]) & 255;
           if (l11 > -1) { break L12; }
           l12 = (b[((int) l8) - 58911] & 0xff) & 63;
           L14: {
            if (l11 + Integer.MIN_VALUE > 2147483615) { break L14; }
            l10 = ((l10 << 6) & 1984) | l12;
            break L12;
           }
           l13 = (b[((int) l8) - 58910] & 0xff) & 63;
           L15: {
            if (l11 + Integer.MIN_VALUE > 2147483631) { break L15; }
            l10 = ((l12 << 6) | ((l10 << 12) & 61440)) | l13;
            break L12;
           }
           l10 = ((l13 << 6) | ((l12 << 12) | ((l10 << 18) & 1835008))) | ((b[((int) l8) - 58909] & 0xff) & 63);
          }
          L16: {
           L17: {
            L18: {
             L19: {
              L20: {
               if (l10 > 26375) { break L20; }
               if (l10 == 21021) { break L10; }
               if (l10 == 21452) { break L19; }
               if (l10 != 24180) { break L11; }
               if (l3 == 0L) { exit = 1; break PART; }
               l10 = (l11 = (int) b[((int) l2) - 58912]) & 255;
               if (l11 <= -1) { break L18; }
               l7 = -1L;
               exit = 2; break PART;
              }
              if (l10 == 26376) { break L16; }
              if (l10 == 36947) { break L17; }
              if (l10 != 38617) { break L11; }
             }
             if (l3 == 0L) { exit = 1; break PART; }
             l10 = (l11 = (int) b[((int) l2) - 58912]) & 255;
             L21: {
              if (l11 <= -1) { break L21; }
              l7 = -1L;
              exit = 2; break PART;
             }
             if (l11 + Integer.MIN_VALUE < 2147483616) { break L7; }
             l12 = (b[((int) l2) - 58911] & 0xff) & 63;
             l13 = (b[((int) l2) - 58910] & 0xff) & 63;
             L22: {
              L23: {
               if (l11 + Integer.MIN_VALUE > 2147483631) { break L23; }
               l14 = ((l12 << 6) | ((l10 << 12) & 61440)) | l13;
               l7 = 3L;
               break L22;
              }
              l14 = ((l13 << 6) | ((l12 << 12) | ((l10 << 18) & 1835008))) | ((b[((int) l2) - 58909] & 0xff) & 63);
              l7 = 4L;
             }
             L24: {
              if (l3 == l7) { break L24; }
              if (l14 != 21313) { break L24; }
              if ((l14 = (int) b[((int) (l8 = l2 + l7)) - 58912]) > -1) { break L24; }
              if (l14 + Integer.MIN_VALUE < 2147483616) { break L24; }
              l15 = l14 & 255;
              l16 = (b[((int) l8) - 58911] & 0xff) & 63;
              l17 = (b[((int) l8) - 58910] & 0xff) & 63;
              L25: {
               L26: {
                if (l14 + Integer.MIN_VALUE < 2147483632) { break L26; }
                l14 = ((l17 << 6) | ((l16 << 12) | ((l15 << 18) & 1835008))) | ((b[((int) l8) - 58909] & 0xff) & 63);
                l8 = 4L;
                break L25;
               }
               l14 = ((l16 << 6) | ((l15 << 12) & 61440)) | l17;
               l8 = 3L;
              }
              if (l14 != 19968) { break L24; }
              if (l3 != (l8 + l7)) { break L24; }
              m.g0 = l6;
              m.intResult = 1; exit = 3; break PART;
             }
             L27: {
              L28: {
               if (l11 + Integer.MIN_VALUE > 2147483631) { break L28; }
               l12 = ((l12 << 6) | ((l10 << 12) & 61440)) | l13;
               l7 = 3L;
               break L27;
              }
              l12 = ((l13 << 6) | ((l12 << 12) | ((l10 << 18) & 1835008))) | ((b[((int) l2) - 58909] & 0xff) & 63);
              l7 = 4L;
             }
             if (l3 == l7) { break L5; }
             if (l12 != 21313) { break L5; }
             if ((l12 = (int) b[((int) (l8 = l2 + l7)) - 58912]) > -1) { break L5; }
             if (l12 + Integer.MIN_VALUE < 2147483616) { break L5; }
             l13 = l12 & 255;
             l14 = (b[((int) l8) - 58911] & 0xff) & 63;
             l15 = (b[((int) l8) - 58910] & 0xff) & 63;
             L29: {
              L30: {
               if (l12 + Integer.MIN_VALUE < 2147483632) { break L30; }
               l12 = ((l15 << 6) | ((l14 << 12) | ((l13 << 18) & 1835008))) | ((b[((int) l8) - 58909] & 0xff) & 63);
               l8 = 4L;
               break L29;
              }
              l12 = ((l14 << 6) | ((l13 << 12) & 61440)) | l15;
              l8 = 3L;
             }
             if (l12 != 20108) { break L5; }
             if (l3 != (l8 + l7)) { break L5; }
             m.g0 = l6;
             m.intResult = 1; exit = 3; break PART;
            }
            if (l11 + Integer.MIN_VALUE < 2147483616) { break L7; }
            l12 = (b[((int) l2) - 58911] & 0xff) & 63;
            l13 = (b[((int) l2) - 58910] & 0xff) & 63;
            L31: {
             L32: {
              if (l11 + Integer.MIN_VALUE > 2147483631) { break L32; }
              l12 = ((l12 << 6) | ((l10 << 12) & 61440)) | l13;
              l7 = 3L;
              break L31;
             }
             l12 = ((l13 << 6) | ((l12 << 12) | ((l10 << 18) & 1835008))) | ((b[((int) l2) - 58909] & 0xff) & 63);
             l7 = 4L;
            }
            if (l3 == l7) { break L5; }
            if (l12 != 19977) { break L5; }
            if ((l12 = (int) b[((int) (l8 = l2 + l7)) - 58912]) > -1) { break L5; }
            if (l12 + Integer.MIN_VALUE < 2147483616) { break L5; }
            l13 = l12 & 255;
            l14 = (b[((int) l8) - 58911] & 0xff) & 63;
            l15 = (b[((int) l8) - 58910] & 0xff) & 63;
            L33: {
             L34: {
              if (l12 + Integer.MIN_VALUE < 2147483632) { break L34; }
              l12 = ((l15 << 6) | ((l14 << 12) | ((l13 << 18) & 1835008))) | ((b[((int) l8) - 58909] & 0xff) & 63);
              l8 = 4L;
              break L33;
             }
             l12 = ((l14 << 6) | ((l13 << 12) & 61440)) | l15;
             l8 = 3L;
            }
            if (l12 != 21313) { break L5; }
            if (l3 != (l8 + l7)) { break L5; }
            m.g0 = l6;
            m.intResult = 1; exit = 3; break PART;
           }
           if (l7 == 0L) { break L11; }
           if (((int) b[((int) ((l8 = l0 + l7) + -1L)) - 58912]) > -1) { break L11; }
           l9 = -2L;
           L35: {
            if ((b[((int) (l8 + -2L)) - 58912] & 0xff) + Integer.MIN_VALUE > -2147483457) { break L35; }
            l9 = ((b[((int) (l8 + -3L)) - 58912] & 0xff) + Integer.MIN_VALUE > -2147483457) ? -3L : -4L;
           }
           if ((l10 = (int) b[((int) (l7 = (l0 + l9) + l7)) - 58912]) > -1) { break L11; }
           if (l10 + Integer.MIN_VALUE < 2147483616) { break L11; }
           l11 = l10 & 255;
           l12 = (b[((int) l7) - 58911] & 0xff) & 63;
           l13 = (b[((int) l7) - 58910] & 0xff) & 63;
           L36: {
            L37: {
             if (l10 + Integer.MIN_VALUE > 2147483631) { break L37; }
             l10 = ((l12 << 6) | ((l11 << 12) & 61440)) | l13;
             break L36;
            }
            l10 = ((l13 << 6) | ((l12 << 12) | ((l11 << 18) & 1835008))) | ((b[((int) l7) - 58909] & 0xff) & 63);
           }
           if (l3 == 0L) { break L11; }
           if (l10 != 21315) { break L11; }
           l10 = (l11 = (int) b[((int) l2) - 58912]) & 255;
           L38: {
            if (l11 <= -1) { break L38; }
            l7 = -1L;
            exit = 2; break PART;
           }
           if (l11 + Integer.MIN_VALUE < 2147483616) { break L7; }
           l12 = (b[((int) l2) - 58911] & 0xff) & 63;
           l13 = (b[((int) l2) - 58910] & 0xff) & 63;
           L39: {
            L40: {
             if (l11 + Integer.MIN_VALUE > 2147483631) { break L40; }
             l14 = ((l12 << 6) | ((l10 << 12) & 61440)) | l13;
             l7 = 3L;
             break L39;
            }
            l14 = ((l13 << 6) | ((l12 << 12) | ((l10 << 18) & 1835008))) | ((b[((int) l2) - 58909] & 0xff) & 63);
            l7 = 4L;
           }
           L41: {
            if (l3 == l7) { break L41; }
            if (l14 != 19968) { break L41; }
            if ((l14 = (int) b[((int) (l8 = l2 + l7)) - 58912]) > -1) { break L41; }
            if (l14 + Integer.MIN_VALUE < 2147483616) { break L41; }
            l15 = l14 & 255;
            l16 = (b[((int) l8) - 58911] & 0xff) & 63;
            l17 = (b[((int) l8) - 58910] & 0xff) & 63;
            L42: {
             L43: {
              if (l14 + Integer.MIN_VALUE < 2147483632) { break L43; }
              l14 = ((l17 << 6) | ((l16 << 12) | ((l15 << 18) & 1835008))) | ((b[((int) l8) - 58909] & 0xff) & 63);
              l8 = 4L;
              break L42;
             }
             l14 = ((l16 << 6) | ((l15 << 12) & 61440)) | l17;
             l8 = 3L;
            }
            if (l14 != 19975) { break L41; }
            if (l3 != (l8 + l7)) { break L41; }
            m.g0 = l6;
            m.intResult = 1; exit = 3; break PART;
           }
           L44: {
            L45: {
             if (l11 + Integer.MIN_VALUE > 2147483631) { break L45; }
             l12 = ((l12 << 6) | ((l10 << 12) & 61440)) | l13;
             l7 = 3L;
             break L44;
            }
            l12 = ((l13 << 6) | ((l12 << 12) | ((l10 << 18) & 1835008))) | ((b[((int) l2) - 58909] & 0xff) & 63);
            l7 = 4L;
           }
           if (l3 == l7) { break L5; }
           if (l12 != 19968) { break L5; }
           if ((l12 = (int) b[((int) (l8 = l2 + l7)) - 58912]) > -1) { break L5; }
           if (l12 + Integer.MIN_VALUE < 2147483616) { break L5; }
           l13 = l12 & 255;
           l14 = (b[((int) l8) - 58911] & 0xff) & 63;
           l15 = (b[((int) l8) - 58910] & 0xff) & 63;
           L46: {
            L47: {
             if (l12 + Integer.MIN_VALUE < 2147483632) { break L47; }
             l12 = ((l15 << 6) | ((l14 << 12) | ((l13 << 18) & 1835008))) | ((b[((int) l8) - 58909] & 0xff) & 63);
             l8 = 4L;
             break L46;
            }
            l12 = ((l14 << 6) | ((l13 << 12) & 61440)) | l15;
            l8 = 3L;
           }
           if (l12 != 33836) { break L5; }
           if (l3 != (l8 + l7)) { break L5; }
           m.g0 = l6;
           m.intResult = 1; exit = 3; break PART;
          }
          if (l7 == 0L) { break L11; }
          if (((int) b[((int) ((l8 = l0 + l7) + -1L)) - 58912]) > -1) { break L11; }
          l9 = -2L;
          L48: {
           if ((b[((int) (l8 + -2L)) - 58912] & 0xff) + Integer.MIN_VALUE > -2147483457) { break L48; }
           l9 = ((b[((int) (l8 + -3L)) - 58912] & 0xff) + Integer.MIN_VALUE > -2147483457) ? -3L : -4L;
          }
          if ((l10 = (int) b[((int) (l7 = (l0 + l9) + l7)) - 58912]) > -1) { break L11; }
          if (l10 + Integer.MIN_VALUE < 2147483616) { break L11; }
          l11 = l10 & 255;
          l12 = (b[((int) l7) - 58911] & 0xff) & 63;
          l13 = (b[((int) l7) - 58910] & 0xff) & 63;
          L49: {
           L50: {
            if (l10 + Integer.MIN_VALUE > 2147483631) { break L50; }
            l11 = ((l12 << 6) | ((l11 << 12) & 61440)) | l13;
            break L49;
           }
           l11 = ((l13 << 6) | ((l12 << 12) | ((l11 << 18) & 1835008))) | ((b[((int) l7) - 58909] & 0xff) & 63);
          }
          l10 = 1;
          if (l11 == 27491) { exit = 4; break PART; }
          if (l11 == 33098) { exit = 4; break PART; }
          if (l11 == 33240) { exit = 4; break PART; }
         }
         if (l3 == 0L) { exit = 1; break PART; }
         l10 = (l11 = (int) b[((int) l2) - 58912]) & 255;
         L51: {
          if (l11 <= -1) { break L51; }
          l7 = -1L;
          exit = 2; break PART;
         }
         l12 = (b[((int) l2) - 58911] & 0xff) & 63;
         if (l11 + Integer.MIN_VALUE > 2147483615) { break L4; }
         break L6;
        }
        if (!(l3 == 0L)) { break L8; }
        exit = 1; break PART;
       }
       throw State.trap();
      }
      l10 = (l11 = (int) b[((int) l2) - 58912]) & 255;
      L52: {
       if (l11 <= -1) { break L52; }
       l7 = -1L;
       exit = 2; break PART;
      }
      if (l11 + Integer.MIN_VALUE < 2147483616) { break L7; }
      l12 = (b[((int) l2) - 58911] & 0xff) & 63;
      l13 = (b[((int) l2) - 58910] & 0xff) & 63;
      L53: {
       L54: {
        if (l11 + Integer.MIN_VALUE > 2147483631) { break L54; }
        l12 = ((l12 << 6) | ((l10 << 12) & 61440)) | l13;
        l7 = 3L;
        break L53;
       }
       l12 = ((l13 << 6) | ((l12 << 12) | ((l10 << 18) & 1835008))) | ((b[((int) l2) - 58909] & 0xff) & 63);
       l7 = 4L;
      }
      if (l3 == l7) { break L5; }
      if (l12 != 19968) { break L5; }
      if ((l12 = (int) b[((int) (l8 = l2 + l7)) - 58912]) > -1) { break L5; }
      if (l12 + Integer.MIN_VALUE < 2147483616) { break L5; }
      l13 = l12 & 255;
      l14 = (b[((int) l8) - 58911] & 0xff) & 63;
      l15 = (b[((int) l8) - 58910] & 0xff) & 63;
      L55: {
       L56: {
        if (l12 + Integer.MIN_VALUE < 2147483632) { break L56; }
        l12 = ((l15 << 6) | ((l14 << 12) | ((l13 << 18) & 1835008))) | ((b[((int) l8) - 58909] & 0xff) & 63);
        l9 = 4L;
        break L55;
       }
       l12 = ((l14 << 6) | ((l13 << 12) & 61440)) | l15;
       l9 = 3L;
      }
      if (l12 != 21313) { break L5; }
      if (l3 == (l7 = l9 + l7)) { break L5; }
      if ((l12 = (int) b[((int) (l8 = l8 + l9)) - 58912]) > -1) { break L5; }
      if (l12 + Integer.MIN_VALUE < 2147483616) { break L5; }
      l13 = l12 & 255;
      l14 = (b[((int) l8) - 58911] & 0xff) & 63;
      l15 = (b[((int) l8) - 58910] & 0xff) & 63;
      L57: {
       L58: {
        if (l12 + Integer.MIN_VALUE < 2147483632) { break L58; }
        l12 = ((l15 << 6) | ((l14 << 12) | ((l13 << 18) & 1835008))) | ((b[((int) l8) - 58909] & 0xff) & 63);
        l8 = 4L;
        break L57;
       }
       l12 = ((l14 << 6) | ((l13 << 12) & 61440)) | l15;
       l8 = 3L;
      }
      if (l12 != 20116) { break L5; }
      if (l3 != (l8 + l7)) { break L5; }
      m.g0 = l6;
      m.intResult = 1; exit = 3; break PART;
     }
     l12 = (b[((int) l2) - 58911] & 0xff) & 63;
    }
    l10 = ((l10 << 6) & 1984) | l12;
    l7 = -2L;
    exit = 2; break PART;
   }
   l12 = (b[((int) l2) - 58911] & 0xff) & 63;
  }
 }
 m.kept[0] = l6;
 m.kept[1] = l7;
 m.kept[2] = l8;
 m.kept[3] = l9;
 m.kept[4] = l10;
 m.kept[5] = l11;
 m.kept[6] = l12;
 m.kept[7] = l13;
 m.kept[8] = l14;
 m.kept[9] = l15;
 m.kept[10] = l16;
 m.kept[11] = l17;
 return exit;
}

static int f180_2(State m, long l0, long l1, long l2, long l3, long l4, long l5, int l16, int l17, int l18, int l19) {
 final byte[] b = m.bytes;
 int exit = 0;
 PART: {
  L73: {
   if (l3 == l1) { break L73; }
   if (l16 != 21313) { break L73; }
   if ((l16 = (int) b[((int) (l0 = l2 + l1)) - 58912]) > -1) { break L73; }
   if (l16 + Integer.MIN_VALUE < 2147483616) { break L73; }
   l17 = l16 & 255;
   l18 = (b[((int) l0) - 58911] & 0xff) & 63;
   l19 = (b[((int) l0) - 58910] & 0xff) & 63;
   L74: {
    L75: {
     if (l16 + Integer.MIN_VALUE < 2147483632) { break L75; }
     l16 = ((l19 << 6) | ((l18 << 12) | ((l17 << 18) & 1835008))) | ((b[((int) l0) - 58909] & 0xff) & 63);
     l0 = 4L;
     break L74;
    }
    l16 = ((l18 << 6) | ((l17 << 12) & 61440)) | l19;
    l0 = 3L;
   }
   if (l16 != 20108) { break L73; }
   if (l3 != (l0 + l1)) { break L73; }
   if (f157(m, 86420L, 1L, 86424L, 2L, l4, l5) != 0) { exit = 1; break PART; }
   if (f157(m, 86432L, 1L, 86436L, 1L, l4, l5) != 0) { exit = 1; break PART; }
   if (f157(m, 83832L, 1L, 86440L, 2L, l4, l5) != 0) { exit = 1; break PART; }
  }
 }
 m.kept[0] = l0;
 m.kept[1] = l16;
 m.kept[2] = l17;
 m.kept[3] = l18;
 m.kept[4] = l19;
 return exit;
}

static int f180_3(State m, long l0, long l1, long l2, long l3, long l4, long l5, int l15, int l16, int l17, int l18, int l19) {
 final byte[] b = m.bytes;
 int exit = 0;
 PART: {
  L79: {
   if (l3 == l1) { break L79; }
   if (l16 != 21313) { break L79; }
   if ((l16 = (int) b[((int) (l0 = l2 + l1)) - 58912]) > -1) { break L79; }
   if (l16 + Integer.MIN_VALUE < 2147483616) { break L79; }
   l17 = l16 & 255;
   l18 = (b[((int) l0) - 58911] & 0xff) & 63;
   l19 = (b[((int) l0) - 58910] & 0xff) & 63;
   L80: {
    L81: {
     if (l16 + Integer.MIN_VALUE < 2147483632) { break L81; }
     l16 = ((l19 << 6) | ((l18 << 12) | ((l17 << 18) & 1835008))) | ((b[((int) l0) - 58909] & 0xff) & 63);
     l0 = 4L;
     break L80;
    }
    l16 = ((l18 << 6) | ((l17 << 12) & 61440)) | l19;
    l0 = 3L;
   }
   if (l16 != 20843) { break L79; }
   if (l3 != (l0 + l1)) { break L79; }
   L82: {
    if (l15 != 0) { break L82; }
    if ((l16 = (int) b[((int) l4) - 58912]) > -1) { break L82; }
    if (l16 + Integer.MIN_VALUE < 2147483616) { break L82; }
    l17 = l16 & 255;
    l18 = (b[((int) l4) - 58911] & 0xff) & 63;
    l19 = (b[((int) l4) - 58910] & 0xff) & 63;
    L83: {
     L84: {
      if (l16 + Integer.MIN_VALUE > 2147483631) { break L84; }
      l16 = ((l18 << 6) | ((l17 << 12) & 61440)) | l19;
      break L83;
     }
     l16 = ((l19 << 6) | ((l18 << 12) | ((l17 << 18) & 1835008))) | ((b[((int) l4) - 58909] & 0xff) & 63);
    }
    if (l16 == 22823) { exit = 1; break PART; }
    if (l16 == 33324) { exit = 1; break PART; }
   }
   if (f157(m, 86448L, 2L, 86456L, 2L, l4, l5) != 0) { exit = 1; break PART; }
   if (f157(m, 86464L, 2L, 86472L, 1L, l4, l5) != 0) { exit = 1; break PART; }
  }
 }
 m.kept[0] = l0;
 m.kept[1] = l16;
 m.kept[2] = l17;
 m.kept[3] = l18;
 m.kept[4] = l19;
 return exit;
}

static int f180_4(State m, long l0, long l1, long l2, long l3, long l4, long l5, int l11, int l12, int l13, int l14, int l15, int l16, int l17, int l18, int l19) {
 final byte[] b = m.bytes;
 int exit = 0;
 PART: {
  L88: {
   L89: {
    L90: {
     if (l3 == l1) { break L90; }
     if (l16 != 21313) { break L90; }
     if ((l16 = (int) b[((int) (l0 = l2 + l1)) - 58912]) > -1) { break L90; }
     if (l16 + Integer.MIN_VALUE < 2147483616) { break L90; }
     l17 = l16 & 255;
     l18 = (b[((int) l0) - 58911] & 0xff) & 63;
     l19 = (b[((int) l0) - 58910] & 0xff) & 63;
     L91: {
      L92: {
       if (l16 + Integer.MIN_VALUE < 2147483632) { break L92; }
       l16 = ((l19 << 6) | ((l18 << 12) | ((l17 << 18) & 1835008))) | ((b[((int) l0) - 58909] & 0xff) & 63);
       l0 = 4L;
       break L91;
      }
      l16 = ((l18 << 6) | ((l17 << 12) & 61440)) | l19;
      l0 = 3L;
     }
     if (l16 != 20061) { break L90; }
     if (l3 == (l0 + l1)) { break L89; }
    }
    L93: {
     L94: {
      if (l11 + Integer.MIN_VALUE > 2147483631) { break L94; }
      l16 = ((l13 << 6) | ((l12 << 12) & 61440)) | l14;
      l1 = 3L;
      break L93;
     }
     l16 = ((l14 << 6) | ((l13 << 12) | ((l12 << 18) & 1835008))) | ((b[((int) l2) - 58909] & 0xff) & 63);
     l1 = 4L;
    }
    if (l3 == l1) { break L88; }
    if (l16 != 20108) { break L88; }
    if ((l16 = (int) b[((int) (l0 = l2 + l1)) - 58912]) > -1) { break L88; }
    if (l16 + Integer.MIN_VALUE < 2147483616) { break L88; }
    l17 = l16 & 255;
    l18 = (b[((int) l0) - 58911] & 0xff) & 63;
    l19 = (b[((int) l0) - 58910] & 0xff) & 63;
    L95: {
     L96: {
      if (l16 + Integer.MIN_VALUE < 2147483632) { break L96; }
      l16 = ((l19 << 6) | ((l18 << 12) | ((l17 << 18) & 1835008))) | ((b[((int) l0) - 58909] & 0xff) & 63);
      l0 = 4L;
      break L95;
     }
     l16 = ((l18 << 6) | ((l17 << 12) & 61440)) | l19;
     l0 = 3L;
    }
    if (l16 != 21313) { break L88; }
    if (l3 != (l0 + l1)) { break L88; }
   }
   L97: {
    if (l15 != 0) { break L97; }
    if ((l16 = (int) b[((int) l4) - 58912]) > -1) { break L97; }
    if (l16 + Integer.MIN_VALUE < 2147483616) { break L97; }
    l17 = l16 & 255;
    l18 = (b[((int) l4) - 58911] & 0xff) & 63;
    l19 = (b[((int) l4) - 58910] & 0xff) & 63;
    L98: {
     L99: {
      if (l16 + Integer.MIN_VALUE > 2147483631) { break L99; }
      l16 = ((l18 << 6) | ((l17 << 12) & 61440)) | l19;
      break L98;
     }
     l16 = ((l19 << 6) | ((l18 << 12) | ((l17 << 18) & 1835008))) | ((b[((int) l4) - 58909] & 0xff) & 63);
    }
    if (l16 == 22823) { exit = 1; break PART; }
   }
   if (f157(m, 86476L, 2L, 86484L, 1L, l4, l5) != 0) { exit = 1; break PART; }
  }
 }
 m.kept[0] = l0;
 m.kept[1] = l1;
 m.kept[2] = l16;
 m.kept[3] = l17;
 m.kept[4] = l18;
 m.kept[5] = l19;
 return exit;
}

static int f180_5(State m, long l0, long l1, long l2, long l3, long l4, long l5, int l15, int l16, int l17, int l18, int l19) {
 final byte[] b = m.bytes;
 int exit = 0;
 PART: {
  L103: {
   if (l3 == l1) { break L103; }
   if (l16 != 21313) { break L103; }
   if ((l16 = (int) b[((int) (l0 = l2 + l1)) - 58912]) > -1) { break L103; }
   if (l16 + Integer.MIN_VALUE < 2147483616) { break L103; }
   l17 = l16 & 255;
   l18 = (b[((int) l0) - 58911] & 0xff) & 63;
   l19 = (b[((int) l0) - 58910] & 0xff) & 63;
   L104: {
    L105: {
     if (l16 + Integer.MIN_VALUE < 2147483632) { break L105; }
     l16 = ((l19 << 6) | ((l18 << 12) | ((l17 << 18) & 1835008))) | ((b[((int) l0) - 58909] & 0xff) & 63);
     l0 = 4L;
     break L104;
    }
    l16 = ((l18 << 6) | ((l17 << 12) & 61440)) | l19;
    l0 = 3L;
   }
   if (l16 != 19968) { break L103; }
   if (l3 != (l0 + l1)) { break L103; }
   L106: {
    if (l15 != 0) { break L106; }
    if ((l16 = (int) b[((int) l4) - 58912]) > -1) { break L106; }
    if (l16 + Integer.MIN_VALUE < 2147483616) { break L106; }
    l17 = l16 & 255;
    l18 = (b[((int) l4) - 58911] & 0xff) & 63;
    l19 = (b[((int) l4) - 58910] & 0xff) & 63;
    L107: {
     L108: {
      if (l16 + Integer.MIN_VALUE > 2147483631) { break L108; }
      l16 = ((l18 << 6) | ((l17 << 12) & 61440)) | l19;
      break L107;
     }
     l16 = ((l19 << 6) | ((l18 << 12) | ((l17 << 18) & 1835008))) | ((b[((int) l4) - 58909] & 0xff) & 63);
    }
    L109: {
     if (l16 > 21434) { break L109; }
     if (l16 == 20877) { exit = 1; break PART; }
     if (l16 != 20986) { break L106; }
     exit = 1; break PART;
    }
    if (l16 == 21435) { exit = 1; break PART; }
    if (l16 == 22238) { exit = 1; break PART; }
    if (l16 == 25918) { exit = 1; break PART; }
   }
   if (f157(m, 86488L, 1L, 83980L, 1L, l4, l5) != 0) { exit = 1; break PART; }
   if (f157(m, 86492L, 2L, 86488L, 1L, l4, l5) != 0) { exit = 1; break PART; }
   if (f157(m, 86500L, 2L, 86508L, 1L, l4, l5) != 0) { exit = 1; break PART; }
  }
 }
 m.kept[0] = l0;
 m.kept[1] = l16;
 m.kept[2] = l17;
 m.kept[3] = l18;
 m.kept[4] = l19;
 return exit;
}

static int f180_6(State m, long l0, long l1, long l2, long l3, long l4, long l7, int l15, int l16, int l17, int l18, int l19) {
 final byte[] b = m.bytes;
 int exit = 0;
 PART: {
  L113: {
   if (l3 == l1) { break L113; }
   if (l16 != 19977) { break L113; }
   if ((l16 = (int) b[((int) (l0 = l2 + l1)) - 58912]) > -1) { break L113; }
   if (l16 + Integer.MIN_VALUE < 2147483616) { break L113; }
   l17 = l16 & 255;
   l18 = (b[((int) l0) - 58911] & 0xff) & 63;
   l19 = (b[((int) l0) - 58910] & 0xff) & 63;
   L114: {
    L115: {
     if (l16 + Integer.MIN_VALUE < 2147483632) { break L115; }
     l16 = ((l19 << 6) | ((l18 << 12) | ((l17 << 18) & 1835008))) | ((b[((int) l0) - 58909] & 0xff) & 63);
     l7 = 4L;
     break L114;
    }
    l16 = ((l18 << 6) | ((l17 << 12) & 61440)) | l19;
    l7 = 3L;
   }
   if (l16 != 21313) { break L113; }
   if (l3 == (l1 = l7 + l1)) { break L113; }
   if ((l16 = (int) b[((int) (l0 = l0 + l7)) - 58912]) > -1) { break L113; }
   if (l16 + Integer.MIN_VALUE < 2147483616) { break L113; }
   l17 = l16 & 255;
   l18 = (b[((int) l0) - 58911] & 0xff) & 63;
   l19 = (b[((int) l0) - 58910] & 0xff) & 63;
   L116: {
    L117: {
     if (l16 + Integer.MIN_VALUE < 2147483632) { break L117; }
     l16 = ((l19 << 6) | ((l18 << 12) | ((l17 << 18) & 1835008))) | ((b[((int) l0) - 58909] & 0xff) & 63);
     l0 = 4L;
     break L116;
    }
    l16 = ((l18 << 6) | ((l17 << 12) & 61440)) | l19;
    l0 = 3L;
   }
   if (l16 != 20845) { break L113; }
   if (l15 != 0) { break L113; }
   if (l3 != (l0 + l1)) { break L113; }
   if ((l16 = (int) b[((int) l4) - 58912]) > -1) { break L113; }
   if (l16 + Integer.MIN_VALUE < 2147483616) { break L113; }
   l17 = l16 & 255;
   l18 = (b[((int) l4) - 58911] & 0xff) & 63;
   l19 = (b[((int) l4) - 58910] & 0xff) & 63;
   L118: {
    L119: {
     if (l16 + Integer.MIN_VALUE > 2147483631) { break L119; }
     l16 = ((l18 << 6) | ((l17 << 12) & 61440)) | l19;
     break L118;
    }
    l16 = ((l19 << 6) | ((l18 << 12) | ((l17 << 18) & 1835008))) | ((b[((int) l4) - 58909] & 0xff) & 63);
   }
   if (l16 == 35336) { exit = 1; break PART; }
   if (l16 == 35745) { exit = 1; break PART; }
  }
 }
 m.kept[0] = l0;
 m.kept[1] = l1;
 m.kept[2] = l7;
 m.kept[3] = l16;
 m.kept[4] = l17;
 m.kept[5] = l18;
 m.kept[6] = l19;
 return exit;
}

static int f180_7(State m, long l0, long l1, long l2, long l3, long l4, long l7, int l15, int l16, int l17, int l18, int l19) {
 final byte[] b = m.bytes;
 int exit = 0;
 PART: {
  L123: {
   if (l3 == l1) { break L123; }
   if (l16 != 19971) { break L123; }
   if ((l16 = (int) b[((int) (l0 = l2 + l1)) - 58912]) > -1) { break L123; }
   if (l16 + Integer.MIN_VALUE < 2147483616) { break L123; }
   l17 = l16 & 255;
   l18 = (b[((int) l0) - 58911] & 0xff) & 63;
   l19 = (b[((int) l0) - 58910] & 0xff) & 63;
   L124: {
    L125: {
     if (l16 + Integer.MIN_VALUE < 2147483632) { break L125; }
     l16 = ((l19 << 6) | ((l18 << 12) | ((l17 << 18) & 1835008))) | ((b[((int) l0) - 58909] & 0xff) & 63);
     l7 = 4L;
     break L124;
    }
    l16 = ((l18 << 6) | ((l17 << 12) & 61440)) | l19;
    l7 = 3L;
   }
   if (l16 != 21313) { break L123; }
   if (l3 == (l1 = l7 + l1)) { break L123; }
   if ((l16 = (int) b[((int) (l0 = l0 + l7)) - 58912]) > -1) { break L123; }
   if (l16 + Integer.MIN_VALUE < 2147483616) { break L123; }
   l17 = l16 & 255;
   l18 = (b[((int) l0) - 58911] & 0xff) & 63;
   l19 = (b[((int) l0) - 58910] & 0xff) & 63;
   L126: {
    L127: {
     if (l16 + Integer.MIN_VALUE < 2147483632) { break L127; }
     l16 = ((l19 << 6) | ((l18 << 12) | ((l17 << 18) & 1835008))) | ((b[((int) l0) - 58909] & 0xff) & 63);
     l0 = 4L;
     break L126;
    }
    l16 = ((l18 << 6) | ((l17 << 12) & 61440)) | l19;
    l0 = 3L;
   }
   if (l16 != 20108) { break L123; }
   if (l15 != 0) { break L123; }
   if (l3 != (l0 + l1)) { break L123; }
   if ((l16 = (int) b[((int) l4) - 58912]) > -1) { break L123; }
   if (l16 + Integer.MIN_VALUE < 2147483616) { break L123; }
   l17 = l16 & 255;
   l18 = (b[((int) l4) - 58911] & 0xff) & 63;
   l19 = (b[((int) l4) - 58910] & 0xff) & 63;
   L128: {
    L129: {
     if (l16 + Integer.MIN_VALUE > 2147483631) { break L129; }
     l16 = ((l18 << 6) | ((l17 << 12) & 61440)) | l19;
     break L128;
    }
    l16 = ((l19 << 6) | ((l18 << 12) | ((l17 << 18) & 1835008))) | ((b[((int) l4) - 58909] & 0xff) & 63);
   }
   if (l16 == 21464) { exit = 1; break PART; }
   if (l16 == 34892) { exit = 1; break PART; }
   if (l16 == 35722) { exit = 1; break PART; }
  }
 }
 m.kept[0] = l0;
 m.kept[1] = l1;
 m.kept[2] = l7;
 m.kept[3] = l16;
 m.kept[4] = l17;
 m.kept[5] = l18;
 m.kept[6] = l19;
 return exit;
}

static int f180_8(State m, long l0, long l1, long l2, long l3, long l4, long l7, int l15, int l16, int l17, int l18, int l19) {
 final byte[] b = m.bytes;
 int exit = 0;
 PART: {
  L133: {
   if (l3 == l1) { break L133; }
   if (l16 != 19977) { break L133; }
   if ((l16 = (int) b[((int) (l0 = l2 + l1)) - 58912]) > -1) { break L133; }
   if (l16 + Integer.MIN_VALUE < 2147483616) { break L133; }
   l17 = l16 & 255;
   l18 = (b[((int) l0) - 58911] & 0xff) & 63;
   l19 = (b[((int) l0) - 58910] & 0xff) & 63;
   L134: {
    L135: {
     if (l16 + Integer.MIN_VALUE < 2147483632) { break L135; }
     l16 = ((l19 << 6) | ((l18 << 12) | ((l17 << 18) & 1835008))) | ((b[((int) l0) - 58909] & 0xff) & 63);
     l7 = 4L;
     break L134;
    }
    l16 = ((l18 << 6) | ((l17 << 12) & 61440)) | l19;
    l7 = 3L;
   }
   if (l16 != 30334) { break L133; }
   if (l3 == (l1 = l7 + l1)) { break L133; }
   if ((l16 = (int) b[((int) (l0 = l0 + l7)) - 58912]) > -1) { break L133; }
   if (l16 + Integer.MIN_VALUE < 2147483616) { break L133; }
   l17 = l16 & 255;
   l18 = (b[((int) l0) - 58911] & 0xff) & 63;
   l19 = (b[((int) l0) - 58910] & 0xff) & 63;
   L136: {
    L137: {
     if (l16 + Integer.MIN_VALUE < 2147483632) { break L137; }
     l16 = ((l19 << 6) | ((l18 << 12) | ((l17 << 18) & 1835008))) | ((b[((int) l0) - 58909] & 0xff) & 63);
     l7 = 4L;
     break L136;
    }
    l16 = ((l18 << 6) | ((l17 << 12) & 61440)) | l19;
    l7 = 3L;
   }
   if (l16 != 20845) { break L133; }
   if (l3 == (l1 = l7 + l1)) { break L133; }
   if ((l16 = (int) b[((int) (l0 = l0 + l7)) - 58912]) > -1) { break L133; }
   if (l16 + Integer.MIN_VALUE < 2147483616) { break L133; }
   l17 = l16 & 255;
   l18 = (b[((int) l0) - 58911] & 0xff) & 63;
   l19 = (b[((int) l0) - 58910] & 0xff) & 63;
   L138: {
    L139: {
     if (l16 + Integer.MIN_VALUE < 2147483632) { break L139; }
     l16 = ((l19 << 6) | ((l18 << 12) | ((l17 << 18) & 1835008))) | ((b[((int) l0) - 58909] & 0xff) & 63);
     l0 = 4L;
     break L138;
    }
    l16 = ((l18 << 6) | ((l17 << 12) & 61440)) | l19;
    l0 = 3L;
   }
   if (l16 != 21313) { break L133; }
   if (l15 != 0) { break L133; }
   if (l3 != (l0 + l1)) { break L133; }
   if ((l16 = (int) b[((int) l4) - 58912]) > -1) { break L133; }
   if (l16 + Integer.MIN_VALUE < 2147483616) { break L133; }
   l17 = l16 & 255;
   l18 = (b[((int) l4) - 58911] & 0xff) & 63;
   l19 = (b[((int) l4) - 58910] & 0xff) & 63;
   L140: {
    L141: {
     if (l16 + Integer.MIN_VALUE > 2147483631) { break L141; }
     l16 = ((l18 << 6) | ((l17 << 12) & 61440)) | l19;
     break L140;
    }
    l16 = ((l19 << 6) | ((l18 << 12) | ((l17 << 18) & 1835008))) | ((b[((int) l4) - 58909] & 0xff) & 63);
   }
   if (l16 == 34892) { exit = 1; break PART; }
  }
 }
 m.kept[0] = l0;
 m.kept[1] = l1;
 m.kept[2] = l7;
 m.kept[3] = l16;
 m.kept[4] = l17;
 m.kept[5] = l18;
 m.kept[6] = l19;
 return exit;
}

static int f180_9(State m, long l0, long l1, long l2, long l3, long l4, long l5, long l7, int l15, int l16, int l17, int l18, int l19) {
 final byte[] b = m.bytes;
 int exit = 0;
 PART: {
  L145: {
   if (l3 == l1) { break L145; }
   if (l16 != 20108) { break L145; }
   if ((l16 = (int) b[((int) (l0 = l2 + l1)) - 58912]) > -1) { break L145; }
   if (l16 + Integer.MIN_VALUE < 2147483616) { break L145; }
   l17 = l16 & 255;
   l18 = (b[((int) l0) - 58911] & 0xff) & 63;
   l19 = (b[((int) l0) - 58910] & 0xff) & 63;
   L146: {
    L147: {
     if (l16 + Integer.MIN_VALUE < 2147483632) { break L147; }
     l16 = ((l19 << 6) | ((l18 << 12) | ((l17 << 18) & 1835008))) | ((b[((int) l0) - 58909] & 0xff) & 63);
     l7 = 4L;
     break L146;
    }
    l16 = ((l18 << 6) | ((l17 << 12) & 61440)) | l19;
    l7 = 3L;
   }
   if (l16 != 21313) { break L145; }
   if (l3 == (l1 = l7 + l1)) { break L145; }
   if ((l16 = (int) b[((int) (l0 = l0 + l7)) - 58912]) > -1) { break L145; }
   if (l16 + Integer.MIN_VALUE < 2147483616) { break L145; }
   l17 = l16 & 255;
   l18 = (b[((int) l0) - 58911] & 0xff) & 63;
   l19 = (b[((int) l0) - 58910] & 0xff) & 63;
   L148: {
    L149: {
     if (l16 + Integer.MIN_VALUE < 2147483632) { break L149; }
     l16 = ((l19 << 6) | ((l18 << 12) | ((l17 << 18) & 1835008))) | ((b[((int) l0) - 58909] & 0xff) & 63);
     l0 = 4L;
     break L148;
    }
    l16 = ((l18 << 6) | ((l17 << 12) & 61440)) | l19;
    l0 = 3L;
   }
   if (l16 != 22235) { break L145; }
   if (l3 != (l0 + l1)) { break L145; }
   L150: {
    if (l15 != 0) { break L150; }
    if ((l16 = (int) b[((int) l4) - 58912]) > -1) { break L150; }
    if (l16 + Integer.MIN_VALUE < 2147483616) { break L150; }
    l17 = l16 & 255;
    l18 = (b[((int) l4) - 58911] & 0xff) & 63;
    l19 = (b[((int) l4) - 58910] & 0xff) & 63;
    L151: {
     L152: {
      if (l16 + Integer.MIN_VALUE > 2147483631) { break L152; }
      l16 = ((l18 << 6) | ((l17 << 12) & 61440)) | l19;
      break L151;
     }
     l16 = ((l19 << 6) | ((l18 << 12) | ((l17 << 18) & 1835008))) | ((b[((int) l4) - 58909] & 0xff) & 63);
    }
    if (l16 == 21490) { exit = 1; break PART; }
   }
   if (f157(m, 86512L, 2L, 86520L, 2L, l4, l5) != 0) { exit = 1; break PART; }
  }
 }
 m.kept[0] = l0;
 m.kept[1] = l1;
 m.kept[2] = l7;
 m.kept[3] = l16;
 m.kept[4] = l17;
 m.kept[5] = l18;
 m.kept[6] = l19;
 return exit;
}

static int f180_10(State m, long l0, long l1, long l2, long l3, long l4, long l7, int l15, int l16, int l17, int l18, int l19) {
 final byte[] b = m.bytes;
 int exit = 0;
 PART: {
  L156: {
   if (l3 == l1) { break L156; }
   if (l16 != 20108) { break L156; }
   if ((l16 = (int) b[((int) (l0 = l2 + l1)) - 58912]) > -1) { break L156; }
   if (l16 + Integer.MIN_VALUE < 2147483616) { break L156; }
   l17 = l16 & 255;
   l18 = (b[((int) l0) - 58911] & 0xff) & 63;
   l19 = (b[((int) l0) - 58910] & 0xff) & 63;
   L157: {
    L158: {
     if (l16 + Integer.MIN_VALUE < 2147483632) { break L158; }
     l16 = ((l19 << 6) | ((l18 << 12) | ((l17 << 18) & 1835008))) | ((b[((int) l0) - 58909] & 0xff) & 63);
     l7 = 4L;
     break L157;
    }
    l16 = ((l18 << 6) | ((l17 << 12) & 61440)) | l19;
    l7 = 3L;
   }
   if (l16 != 21313) { break L156; }
   if (l3 == (l1 = l7 + l1)) { break L156; }
   if ((l16 = (int) b[((int) (l0 = l0 + l7)) - 58912]) > -1) { break L156; }
   if (l16 + Integer.MIN_VALUE < 2147483616) { break L156; }
   l17 = l16 & 255;
   l18 = (b[((int) l0) - 58911] & 0xff) & 63;
   l19 = (b[((int) l0) - 58910] & 0xff) & 63;
   L159: {
    L160: {
     if (l16 + Integer.MIN_VALUE < 2147483632) { break L160; }
     l16 = ((l19 << 6) | ((l18 << 12) | ((l17 << 18) & 1835008))) | ((b[((int) l0) - 58909] & 0xff) & 63);
     l0 = 4L;
     break L159;
    }
    l16 = ((l18 << 6) | ((l17 << 12) & 61440)) | l19;
    l0 = 3L;
   }
   if (l16 != 20843) { break L156; }
   if (l15 != 0) { break L156; }
   if (l3 != (l0 + l1)) { break L156; }
   if ((l16 = (int) b[((int) l4) - 58912]) > -1) { break L156; }
   if (l16 + Integer.MIN_VALUE < 2147483616) { break L156; }
   l17 = l16 & 255;
   l18 = (b[((int) l4) - 58911] & 0xff) & 63;
   l19 = (b[((int) l4) - 58910] & 0xff) & 63;
   L161: {
    L162: {
     if (l16 + Integer.MIN_VALUE > 2147483631) { break L162; }
     l16 = ((l18 << 6) | ((l17 << 12) & 61440)) | l19;
     break L161;
    }
    l16 = ((l19 << 6) | ((l18 << 12) | ((l17 << 18) & 1835008))) | ((b[((int) l4) - 58909] & 0xff) & 63);
   }
   if (l16 == 23487) { exit = 1; break PART; }
  }
 }
 m.kept[0] = l0;
 m.kept[1] = l1;
 m.kept[2] = l7;
 m.kept[3] = l16;
 m.kept[4] = l17;
 m.kept[5] = l18;
 m.kept[6] = l19;
 return exit;
}

static int f180_11(State m, long l0, long l1, long l2, long l3, long l4, int l15, int l16, int l17, int l18, int l19) {
 final byte[] b = m.bytes;
 int exit = 0;
 PART: {
  L166: {
   if (l3 == l1) { break L166; }
   if (l16 != 21313) { break L166; }
   if ((l16 = (int) b[((int) (l0 = l2 + l1)) - 58912]) > -1) { break L166; }
   if (l16 + Integer.MIN_VALUE < 2147483616) { break L166; }
   l17 = l16 & 255;
   l18 = (b[((int) l0) - 58911] & 0xff) & 63;
   l19 = (b[((int) l0) - 58910] & 0xff) & 63;
   L167: {
    L168: {
     if (l16 + Integer.MIN_VALUE < 2147483632) { break L168; }
     l16 = ((l19 << 6) | ((l18 << 12) | ((l17 << 18) & 1835008))) | ((b[((int) l0) - 58909] & 0xff) & 63);
     l0 = 4L;
     break L167;
    }
    l16 = ((l18 << 6) | ((l17 << 12) & 61440)) | l19;
    l0 = 3L;
   }
   if (l16 != 19977) { break L166; }
   if (l15 != 0) { break L166; }
   if (l3 != (l0 + l1)) { break L166; }
   if ((l16 = (int) b[((int) l4) - 58912]) > -1) { break L166; }
   if (l16 + Integer.MIN_VALUE < 2147483616) { break L166; }
   l17 = l16 & 255;
   l18 = (b[((int) l4) - 58911] & 0xff) & 63;
   l19 = (b[((int) l4) - 58910] & 0xff) & 63;
   L169: {
    L170: {
     if (l16 + Integer.MIN_VALUE > 2147483631) { break L170; }
     l16 = ((l18 << 6) | ((l17 << 12) & 61440)) | l19;
     break L169;
    }
    l16 = ((l19 << 6) | ((l18 << 12) | ((l17 << 18) & 1835008))) | ((b[((int) l4) - 58909] & 0xff) & 63);
   }
   if (l16 == 22969) { exit = 1; break PART; }
   if (l16 == 38517) { exit = 1; break PART; }
  }
 }
 m.kept[0] = l0;
 m.kept[1] = l16;
 m.kept[2] = l17;
 m.kept[3] = l18;
 m.kept[4] = l19;
 return exit;
}

static int f180_12(State m, long l0, long l1, long l2, long l3, long l4, long l7, int l15, int l16, int l17, int l18, int l19) {
 final byte[] b = m.bytes;
 int exit = 0;
 PART: {
  L174: {
   if (l3 == l1) { break L174; }
   if (l16 != 19968) { break L174; }
   if ((l16 = (int) b[((int) (l0 = l2 + l1)) - 58912]) > -1) { break L174; }
   if (l16 + Integer.MIN_VALUE < 2147483616) { break L174; }
   l17 = l16 & 255;
   l18 = (b[((int) l0) - 58911] & 0xff) & 63;
   l19 = (b[((int) l0) - 58910] & 0xff) & 63;
   L175: {
    L176: {
     if (l16 + Integer.MIN_VALUE < 2147483632) { break L176; }
     l16 = ((l19 << 6) | ((l18 << 12) | ((l17 << 18) & 1835008))) | ((b[((int) l0) - 58909] & 0xff) & 63);
     l7 = 4L;
     break L175;
    }
    l16 = ((l18 << 6) | ((l17 << 12) & 61440)) | l19;
    l7 = 3L;
   }
   if (l16 != 21315) { break L174; }
   if (l3 == (l1 = l7 + l1)) { break L174; }
   if ((l16 = (int) b[((int) (l0 = l0 + l7)) - 58912]) > -1) { break L174; }
   if (l16 + Integer.MIN_VALUE < 2147483616) { break L174; }
   l17 = l16 & 255;
   l18 = (b[((int) l0) - 58911] & 0xff) & 63;
   l19 = (b[((int) l0) - 58910] & 0xff) & 63;
   L177: {
    L178: {
     if (l16 + Integer.MIN_VALUE < 2147483632) { break L178; }
     l16 = ((l19 << 6) | ((l18 << 12) | ((l17 << 18) & 1835008))) | ((b[((int) l0) - 58909] & 0xff) & 63);
     l7 = 4L;
     break L177;
    }
    l16 = ((l18 << 6) | ((l17 << 12) & 61440)) | l19;
    l7 = 3L;
   }
   if (l16 != 38646) { break L174; }
   if (l3 == (l1 = l7 + l1)) { break L174; }
   if ((l16 = (int) b[((int) (l0 = l0 + l7)) - 58912]) > -1) { break L174; }
   if (l16 + Integer.MIN_VALUE < 2147483616) { break L174; }
   l17 = l16 & 255;
   l18 = (b[((int) l0) - 58911] & 0xff) & 63;
   l19 = (b[((int) l0) - 58910] & 0xff) & 63;
   L179: {
    L180: {
     if (l16 + Integer.MIN_VALUE < 2147483632) { break L180; }
     l16 = ((l19 << 6) | ((l18 << 12) | ((l17 << 18) & 1835008))) | ((b[((int) l0) - 58909] & 0xff) & 63);
     l0 = 4L;
     break L179;
    }
    l16 = ((l18 << 6) | ((l17 << 12) & 61440)) | l19;
    l0 = 3L;
   }
   if (l16 != 19968) { break L174; }
   if (l15 != 0) { break L174; }
   if (l3 != (l0 + l1)) { break L174; }
   if ((l16 = (int) b[((int) l4) - 58912]) > -1) { break L174; }
   if (l16 + Integer.MIN_VALUE < 2147483616) { break L174; }
   l17 = l16 & 255;
   l18 = (b[((int) l4) - 58911] & 0xff) & 63;
   l19 = (b[((int) l4) - 58910] & 0xff) & 63;
   L181: {
    L182: {
     if (l16 + Integer.MIN_VALUE > 2147483631) { break L182; }
     l16 = ((l18 << 6) | ((l17 << 12) & 61440)) | l19;
     break L181;
    }
    l16 = ((l19 << 6) | ((l18 << 12) | ((l17 << 18) & 1835008))) | ((b[((int) l4) - 58909] & 0xff) & 63);
   }
   if (l16 == 22812) { exit = 1; break PART; }
  }
 }
 m.kept[0] = l0;
 m.kept[1] = l1;
 m.kept[2] = l7;
 m.kept[3] = l16;
 m.kept[4] = l17;
 m.kept[5] = l18;
 m.kept[6] = l19;
 return exit;
}

static int f180_13(State m, long l0, long l1, long l2, long l3, long l4, long l5, int l11, int l12, int l13, int l14, int l16, int l17, int l18, int l19) {
 final byte[] b = m.bytes;
 int exit = 0;
 PART: {
  L191: {
   L192: {
    L193: {
     if (l3 == l1) { break L193; }
     if (l16 != 21313) { break L193; }
     if ((l16 = (int) b[((int) (l0 = l2 + l1)) - 58912]) > -1) { break L193; }
     if (l16 + Integer.MIN_VALUE < 2147483616) { break L193; }
     l17 = l16 & 255;
     l18 = (b[((int) l0) - 58911] & 0xff) & 63;
     l19 = (b[((int) l0) - 58910] & 0xff) & 63;
     L194: {
      L195: {
       if (l16 + Integer.MIN_VALUE < 2147483632) { break L195; }
       l16 = ((l19 << 6) | ((l18 << 12) | ((l17 << 18) & 1835008))) | ((b[((int) l0) - 58909] & 0xff) & 63);
       l0 = 4L;
       break L194;
      }
      l16 = ((l18 << 6) | ((l17 << 12) & 61440)) | l19;
      l0 = 3L;
     }
     if (l16 != 19975) { break L193; }
     if (l3 == (l0 + l1)) { break L192; }
    }
    L196: {
     L197: {
      if (l11 + Integer.MIN_VALUE > 2147483631) { break L197; }
      l16 = ((l13 << 6) | ((l12 << 12) & 61440)) | l14;
      l1 = 3L;
      break L196;
     }
     l16 = ((l14 << 6) | ((l13 << 12) | ((l12 << 18) & 1835008))) | ((b[((int) l2) - 58909] & 0xff) & 63);
     l1 = 4L;
    }
    if (l3 == l1) { break L191; }
    if (l16 != 21313) { break L191; }
    if ((l16 = (int) b[((int) (l0 = l2 + l1)) - 58912]) > -1) { break L191; }
    if (l16 + Integer.MIN_VALUE < 2147483616) { break L191; }
    l17 = l16 & 255;
    l18 = (b[((int) l0) - 58911] & 0xff) & 63;
    l19 = (b[((int) l0) - 58910] & 0xff) & 63;
    L198: {
     L199: {
      if (l16 + Integer.MIN_VALUE < 2147483632) { break L199; }
      l16 = ((l19 << 6) | ((l18 << 12) | ((l17 << 18) & 1835008))) | ((b[((int) l0) - 58909] & 0xff) & 63);
      l0 = 4L;
      break L198;
     }
     l16 = ((l18 << 6) | ((l17 << 12) & 61440)) | l19;
     l0 = 3L;
    }
    if (l16 != 33836) { break L191; }
    if (l3 != (l0 + l1)) { break L191; }
   }
   if (f157(m, 86528L, 1L, 86532L, 1L, l4, l5) != 0) { exit = 1; break PART; }
  }
 }
 m.kept[0] = l0;
 m.kept[1] = l1;
 m.kept[2] = l16;
 m.kept[3] = l17;
 m.kept[4] = l18;
 m.kept[5] = l19;
 return exit;
}

static int f180_14(State m, long l0, long l1, long l2, long l3, long l4, long l7, int l11, int l12, int l13, int l14, int l15, int l16, int l17, int l18, int l19) {
 final byte[] b = m.bytes;
 int exit = 0;
 PART: {
  L203: {
   L204: {
    L205: {
     L206: {
      if (l3 == l1) { break L206; }
      if (l16 != 21313) { break L206; }
      if ((l16 = (int) b[((int) (l0 = l2 + l1)) - 58912]) > -1) { break L206; }
      if (l16 + Integer.MIN_VALUE < 2147483616) { break L206; }
      l17 = l16 & 255;
      l18 = (b[((int) l0) - 58911] & 0xff) & 63;
      l19 = (b[((int) l0) - 58910] & 0xff) & 63;
      L207: {
       L208: {
        if (l16 + Integer.MIN_VALUE < 2147483632) { break L208; }
        l16 = ((l19 << 6) | ((l18 << 12) | ((l17 << 18) & 1835008))) | ((b[((int) l0) - 58909] & 0xff) & 63);
        l7 = 4L;
        break L207;
       }
       l16 = ((l18 << 6) | ((l17 << 12) & 61440)) | l19;
       l7 = 3L;
      }
      if (l16 != 19975) { break L206; }
      if (l3 == (l1 = l7 + l1)) { break L206; }
      if ((l16 = (int) b[((int) (l0 = l0 + l7)) - 58912]) > -1) { break L206; }
      if (l16 + Integer.MIN_VALUE < 2147483616) { break L206; }
      l17 = l16 & 255;
      l18 = (b[((int) l0) - 58911] & 0xff) & 63;
      l19 = (b[((int) l0) - 58910] & 0xff) & 63;
      L209: {
       L210: {
        if (l16 + Integer.MIN_VALUE < 2147483632) { break L210; }
        l16 = ((l19 << 6) | ((l18 << 12) | ((l17 << 18) & 1835008))) | ((b[((int) l0) - 58909] & 0xff) & 63);
        l7 = 4L;
        break L209;
       }
       l16 = ((l18 << 6) | ((l17 << 12) & 61440)) | l19;
       l7 = 3L;
      }
      if (l16 != 20843) { break L206; }
      if (l3 == (l1 = l7 + l1)) { break L206; }
      if ((l16 = (int) b[((int) (l0 = l0 + l7)) - 58912]) > -1) { break L206; }
      if (l16 + Integer.MIN_VALUE < 2147483616) { break L206; }
      l17 = l16 & 255;
      l18 = (b[((int) l0) - 58911] & 0xff) & 63;
      l19 = (b[((int) l0) - 58910] & 0xff) & 63;
      L211: {
       L212: {
        if (l16 + Integer.MIN_VALUE < 2147483632) { break L212; }
        l16 = ((l19 << 6) | ((l18 << 12) | ((l17 << 18) & 1835008))) | ((b[((int) l0) - 58909] & 0xff) & 63);
        l0 = 4L;
        break L211;
       }
       l16 = ((l18 << 6) | ((l17 << 12) & 61440)) | l19;
       l0 = 3L;
      }
      if (l16 != 21315) { break L206; }
      if (l3 == (l0 + l1)) { break L205; }
     }
     L213: {
      L214: {
       if (l11 + Integer.MIN_VALUE > 2147483631) { break L214; }
       l16 = ((l13 << 6) | ((l12 << 12) & 61440)) | l14;
       l1 = 3L;
       break L213;
      }
      l16 = ((l14 << 6) | ((l13 << 12) | ((l12 << 18) & 1835008))) | ((b[((int) l2) - 58909] & 0xff) & 63);
      l1 = 4L;
     }
     if (l3 == l1) { break L203; }
     if (l16 != 21313) { break L203; }
     if ((l16 = (int) b[((int) (l0 = l2 + l1)) - 58912]) > -1) { break L203; }
     if (l16 + Integer.MIN_VALUE < 2147483616) { break L203; }
     l17 = l16 & 255;
     l18 = (b[((int) l0) - 58911] & 0xff) & 63;
     l19 = (b[((int) l0) - 58910] & 0xff) & 63;
     L215: {
      L216: {
       if (l16 + Integer.MIN_VALUE < 2147483632) { break L216; }
       l16 = ((l19 << 6) | ((l18 << 12) | ((l17 << 18) & 1835008))) | ((b[((int) l0) - 58909] & 0xff) & 63);
       l7 = 4L;
       break L215;
      }
      l16 = ((l18 << 6) | ((l17 << 12) & 61440)) | l19;
      l7 = 3L;
     }
     if (l16 != 33836) { break L203; }
     if (l3 == (l1 = l7 + l1)) { break L203; }
     if ((l16 = (int) b[((int) (l0 = l0 + l7)) - 58912]) > -1) { break L203; }
     if (l16 + Integer.MIN_VALUE < 2147483616) { break L203; }
     l17 = l16 & 255;
     l18 = (b[((int) l0) - 58911] & 0xff) & 63;
     l19 = (b[((int) l0) - 58910] & 0xff) & 63;
     L217: {
      L218: {
       if (l16 + Integer.MIN_VALUE < 2147483632) { break L218; }
       l16 = ((l19 << 6) | ((l18 << 12) | ((l17 << 18) & 1835008))) | ((b[((int) l0) - 58909] & 0xff) & 63);
       l7 = 4L;
       break L217;
      }
      l16 = ((l18 << 6) | ((l17 << 12) & 61440)) | l19;
      l7 = 3L;
     }
     if (l16 != 20843) { break L203; }
     if (l3 == (l1 = l7 + l1)) { break L203; }
     if ((l16 = (int) b[((int) (l0 = l0 + l7)) - 58912]) > -1) { break L203; }
     if (l16 + Integer.MIN_VALUE < 2147483616) { break L203; }
     l17 = l16 & 255;
     l18 = (b[((int) l0) - 58911] & 0xff) & 63;
     l19 = (b[((int) l0) - 58910] & 0xff) & 63;
     L219: {
      L220: {
       if (l16 + Integer.MIN_VALUE < 2147483632) { break L220; }
       l16 = ((l19 << 6) | ((l18 << 12) | ((l17 << 18) & 1835008))) | ((b[((int) l0) - 58909] & 0xff) & 63);
       l0 = 4L;
       break L219;
      }
      l16 = ((l18 << 6) | ((l17 << 12) & 61440)) | l19;
      l0 = 3L;
     }
     if (l16 != 21315) { break L203; }
     if (l15 != 0) { break L203; }
     if (l3 == (l0 + l1)) { break L204; }
     break L203;
    }
    if (l15 != 0) { break L203; }
   }
   if ((l15 = (int) b[((int) l4) - 58912]) > -1) { break L203; }
   if (l15 + Integer.MIN_VALUE < 2147483616) { break L203; }
   l16 = l15 & 255;
   l17 = (b[((int) l4) - 58911] & 0xff) & 63;
   l18 = (b[((int) l4) - 58910] & 0xff) & 63;
   L221: {
    L222: {
     if (l15 + Integer.MIN_VALUE > 2147483631) { break L222; }
     l15 = ((l17 << 6) | ((l16 << 12) & 61440)) | l18;
     break L221;
    }
    l15 = ((l18 << 6) | ((l17 << 12) | ((l16 << 18) & 1835008))) | ((b[((int) l4) - 58909] & 0xff) & 63);
   }
   if (l15 == 37324) { exit = 1; break PART; }
  }
 }
 m.kept[0] = l0;
 m.kept[1] = l1;
 m.kept[2] = l7;
 m.kept[3] = l15;
 m.kept[4] = l16;
 m.kept[5] = l17;
 m.kept[6] = l18;
 m.kept[7] = l19;
 return exit;
}

static int f180_15(State m, long l0, long l1, long l2, long l3, long l5, int l15, int l16, int l17, int l18) {
 final byte[] b = m.bytes;
 int exit = 0;
 PART: {
  L251: {
   if (l3 == l1) { break L251; }
   if (l15 != 20108) { break L251; }
   if ((l15 = (int) b[((int) (l0 = l2 + l1)) - 58912]) > -1) { break L251; }
   if (l15 + Integer.MIN_VALUE < 2147483616) { break L251; }
   l16 = l15 & 255;
   l17 = (b[((int) l0) - 58911] & 0xff) & 63;
   l18 = (b[((int) l0) - 58910] & 0xff) & 63;
   L252: {
    L253: {
     if (l15 + Integer.MIN_VALUE < 2147483632) { break L253; }
     l15 = ((l18 << 6) | ((l17 << 12) | ((l16 << 18) & 1835008))) | ((b[((int) l0) - 58909] & 0xff) & 63);
     l5 = 4L;
     break L252;
    }
    l15 = ((l17 << 6) | ((l16 << 12) & 61440)) | l18;
    l5 = 3L;
   }
   if (l15 != 30334) { break L251; }
   if (l3 == (l1 = l5 + l1)) { break L251; }
   if ((l15 = (int) b[((int) (l0 = l0 + l5)) - 58912]) > -1) { break L251; }
   if (l15 + Integer.MIN_VALUE < 2147483616) { break L251; }
   l16 = l15 & 255;
   l17 = (b[((int) l0) - 58911] & 0xff) & 63;
   l18 = (b[((int) l0) - 58910] & 0xff) & 63;
   L254: {
    L255: {
     if (l15 + Integer.MIN_VALUE < 2147483632) { break L255; }
     l15 = ((l18 << 6) | ((l17 << 12) | ((l16 << 18) & 1835008))) | ((b[((int) l0) - 58909] & 0xff) & 63);
     l0 = 4L;
     break L254;
    }
    l15 = ((l17 << 6) | ((l16 << 12) & 61440)) | l18;
    l0 = 3L;
   }
   if (l15 != 20116) { break L251; }
   if (l3 == (l0 + l1)) { exit = 1; break PART; }
  }
 }
 m.kept[0] = l0;
 m.kept[1] = l1;
 m.kept[2] = l5;
 m.kept[3] = l15;
 m.kept[4] = l16;
 m.kept[5] = l17;
 m.kept[6] = l18;
 return exit;
}

static int f180(State m, long l0, long l1, long l2, long l3, long l4, long l5) {
 final byte[] b = m.bytes;
 long l6 = 0;
 long l7 = 0;
 long l8 = 0;
 long l9 = 0;
 int l10 = 0;
 int l11 = 0;
 int l12 = 0;
 int l13 = 0;
 int l14 = 0;
 int l15 = 0;
 int l16 = 0;
 int l17 = 0;
 int l18 = 0;
 int l19 = 0;
 L1: {
  L2: {
   L3: {
    final int x59 = f180_1(m, l0, l1, l2, l3, l6, l7, l8, l9, l10, l11, l12, l13, l14, l15, l16, l17);
    l6 = m.kept[0];
    l7 = m.kept[1];
    l8 = m.kept[2];
    l9 = m.kept[3];
    l10 = (int) m.kept[4];
    l11 = (int) m.kept[5];
    l12 = (int) m.kept[6];
    l13 = (int) m.kept[7];
    l14 = (int) m.kept[8];
    l15 = (int) m.kept[9];
    l16 = (int) m.kept[10];
    l17 = (int) m.kept[11];
    switch (x59) {
    case 1: break L2;
    case 2: break L3;
    case 3: return m.intResult;
    case 4: break L1;
    }
    l13 = (b[((int) l2) - 58910] & 0xff) & 63;
    L60: {
     if (l11 + Integer.MIN_VALUE > 2147483631) { break L60; }
     l10 = ((l12 << 6) | ((l10 << 12) & 61440)) | l13;
     l7 = -3L;
     break L3;
    }
    l10 = ((l13 << 6) | ((l12 << 12) | ((l10 << 18) & 1835008))) | ((b[((int) l2) - 58909] & 0xff) & 63);
    l7 = -4L;
   }
   L61: {
    L62: {
     if (l10 > 20844) { break L62; }
     L63: {
      switch (l10 + -19968) {
      case 0: case 9: break L61;
      case 1: case 2: case 3: case 4: case 5: case 6: case 7: case 8: break L2;
      default: break L63;
      }
     }
     switch (l10 + -20108) {
     case 0: case 8: break L61;
     default: break L2;
     }
    }
    if (l10 == 22235) { break L61; }
    if (l10 != 20845) { break L2; }
   }
   if (l7 == (0L - l3)) { break L2; }
   if (Core4.f144(m, l0, l1) == 0) { break L2; }
   m.g0 = l6;
   return 1;
  }
  l10 = 1;
  if (f176(m, l0, l1) != 0) { break L1; }
  L64: {
   if ((l15 = (l5 == 0L) ? 1 : 0) != 0) { break L64; }
   if ((l11 = (int) b[((int) l4) - 58912]) > -1) { break L64; }
   if (l11 + Integer.MIN_VALUE < 2147483616) { break L64; }
   l12 = l11 & 255;
   l13 = (b[((int) l4) - 58911] & 0xff) & 63;
   l14 = (b[((int) l4) - 58910] & 0xff) & 63;
   L65: {
    L66: {
     if (l11 + Integer.MIN_VALUE > 2147483631) { break L66; }
     l11 = ((l13 << 6) | ((l12 << 12) & 61440)) | l14;
     break L65;
    }
    l11 = ((l14 << 6) | ((l13 << 12) | ((l12 << 18) & 1835008))) | ((b[((int) l4) - 58909] & 0xff) & 63);
   }
   if (l11 != 24180) { break L64; }
   if (f175(m, l0, l1) != 0) { break L1; }
  }
  l11 = f157(m, 86332L, 9L, 86368L, 13L, l2, l3);
  L67: {
   if (!(l3 == 0L)) { break L67; }
   m.g0 = l6;
   return 0;
  }
  L68: {
   if (l11 != 0) { break L68; }
   m.g0 = l6;
   return 0;
  }
  L69: {
   if ((l11 = (int) b[((int) l2) - 58912]) <= -1) { break L69; }
   m.g0 = l6;
   return 0;
  }
  L70: {
   if (l11 + Integer.MIN_VALUE >= 2147483616) { break L70; }
   m.g0 = l6;
   return 0;
  }
  l12 = l11 & 255;
  l13 = (b[((int) l2) - 58911] & 0xff) & 63;
  l14 = (b[((int) l2) - 58910] & 0xff) & 63;
  L71: {
   L72: {
    if (l11 + Integer.MIN_VALUE > 2147483631) { break L72; }
    l16 = ((l13 << 6) | ((l12 << 12) & 61440)) | l14;
    l1 = 3L;
    break L71;
   }
   l16 = ((l14 << 6) | ((l13 << 12) | ((l12 << 18) & 1835008))) | ((b[((int) l2) - 58909] & 0xff) & 63);
   l1 = 4L;
  }
  final int x76 = f180_2(m, l0, l1, l2, l3, l4, l5, l16, l17, l18, l19);
  l0 = m.kept[0];
  l16 = (int) m.kept[1];
  l17 = (int) m.kept[2];
  l18 = (int) m.kept[3];
  l19 = (int) m.kept[4];
  switch (x76) {
  case 1: break L1;
  }
  L77: {
   L78: {
    if (l11 + Integer.MIN_VALUE > 2147483631) { break L78; }
    l16 = ((l13 << 6) | ((l12 << 12) & 61440)) | l14;
    l1 = 3L;
    break L77;
   }
   l16 = ((l14 << 6) | ((l13 << 12) | ((l12 << 18) & 1835008))) | ((b[((int) l2) - 58909] & 0xff) & 63);
   l1 = 4L;
  }
  final int x85 = f180_3(m, l0, l1, l2, l3, l4, l5, l15, l16, l17, l18, l19);
  l0 = m.kept[0];
  l16 = (int) m.kept[1];
  l17 = (int) m.kept[2];
  l18 = (int) m.kept[3];
  l19 = (int) m.kept[4];
  switch (x85) {
  case 1: break L1;
  }
  L86: {
   L87: {
    if (l11 + Integer.MIN_VALUE > 2147483631) { break L87; }
    l16 = ((l13 << 6) | ((l12 << 12) & 61440)) | l14;
    l1 = 3L;
    break L86;
   }
   l16 = ((l14 << 6) | ((l13 << 12) | ((l12 << 18) & 1835008))) | ((b[((int) l2) - 58909] & 0xff) & 63);
   l1 = 4L;
  }
  final int x100 = f180_4(m, l0, l1, l2, l3, l4, l5, l11, l12, l13, l14, l15, l16, l17, l18, l19);
  l0 = m.kept[0];
  l1 = m.kept[1];
  l16 = (int) m.kept[2];
  l17 = (int) m.kept[3];
  l18 = (int) m.kept[4];
  l19 = (int) m.kept[5];
  switch (x100) {
  case 1: break L1;
  }
  L101: {
   L102: {
    if (l11 + Integer.MIN_VALUE > 2147483631) { break L102; }
    l16 = ((l13 << 6) | ((l12 << 12) & 61440)) | l14;
    l1 = 3L;
    break L101;
   }
   l16 = ((l14 << 6) | ((l13 << 12) | ((l12 << 18) & 1835008))) | ((b[((int) l2) - 58909] & 0xff) & 63);
   l1 = 4L;
  }
  final int x110 = f180_5(m, l0, l1, l2, l3, l4, l5, l15, l16, l17, l18, l19);
  l0 = m.kept[0];
  l16 = (int) m.kept[1];
  l17 = (int) m.kept[2];
  l18 = (int) m.kept[3];
  l19 = (int) m.kept[4];
  switch (x110) {
  case 1: break L1;
  }
  L111: {
   L112: {
    if (l11 + Integer.MIN_VALUE > 2147483631) { break L112; }
    l16 = ((l13 << 6) | ((l12 << 12) & 61440)) | l14;
    l1 = 3L;
    break L111;
   }
   l16 = ((l14 << 6) | ((l13 << 12) | ((l12 << 18) & 1835008))) | ((b[((int) l2) - 58909] & 0xff) & 63);
   l1 = 4L;
  }
  final int x120 = f180_6(m, l0, l1, l2, l3, l4, l7, l15, l16, l17, l18, l19);
  l0 = m.kept[0];
  l1 = m.kept[1];
  l7 = m.kept[2];
  l16 = (int) m.kept[3];
  l17 = (int) m.kept[4];
  l18 = (int) m.kept[5];
  l19 = (int) m.kept[6];
  switch (x120) {
  case 1: break L1;
  }
  L121: {
   L122: {
    if (l11 + Integer.MIN_VALUE > 2147483631) { break L122; }
    l16 = ((l13 << 6) | ((l12 << 12) & 61440)) | l14;
    l1 = 3L;
    break L121;
   }
   l16 = ((l14 << 6) | ((l13 << 12) | ((l12 << 18) & 1835008))) | ((b[((int) l2) - 58909] & 0xff) & 63);
   l1 = 4L;
  }
  final int x130 = f180_7(m, l0, l1, l2, l3, l4, l7, l15, l16, l17, l18, l19);
  l0 = m.kept[0];
  l1 = m.kept[1];
  l7 = m.kept[2];
  l16 = (int) m.kept[3];
  l17 = (int) m.kept[4];
  l18 = (int) m.kept[5];
  l19 = (int) m.kept[6];
  switch (x130) {
  case 1: break L1;
  }
  L131: {
   L132: {
    if (l11 + Integer.MIN_VALUE > 2147483631) { break L132; }
    l16 = ((l13 << 6) | ((l12 << 12) & 61440)) | l14;
    l1 = 3L;
    break L131;
   }
   l16 = ((l14 << 6) | ((l13 << 12) | ((l12 << 18) & 1835008))) | ((b[((int) l2) - 58909] & 0xff) & 63);
   l1 = 4L;
  }
  final int x142 = f180_8(m, l0, l1, l2, l3, l4, l7, l15, l16, l17, l18, l19);
  l0 = m.kept[0];
  l1 = m.kept[1];
  l7 = m.kept[2];
  l16 = (int) m.kept[3];
  l17 = (int) m.kept[4];
  l18 = (int) m.kept[5];
  l19 = (int) m.kept[6];
  switch (x142) {
  case 1: break L1;
  }
  L143: {
   L144: {
    if (l11 + Integer.MIN_VALUE > 2147483631) { break L144; }
    l16 = ((l13 << 6) | ((l12 << 12) & 61440)) | l14;
    l1 = 3L;
    break L143;
   }
   l16 = ((l14 << 6) | ((l13 << 12) | ((l12 << 18) & 1835008))) | ((b[((int) l2) - 58909] & 0xff) & 63);
   l1 = 4L;
  }
  final int x153 = f180_9(m, l0, l1, l2, l3, l4, l5, l7, l15, l16, l17, l18, l19);
  l0 = m.kept[0];
  l1 = m.kept[1];
  l7 = m.kept[2];
  l16 = (int) m.kept[3];
  l17 = (int) m.kept[4];
  l18 = (int) m.kept[5];
  l19 = (int) m.kept[6];
  switch (x153) {
  case 1: break L1;
  }
  L154: {
   L155: {
    if (l11 + Integer.MIN_VALUE > 2147483631) { break L155; }
    l16 = ((l13 << 6) | ((l12 << 12) & 61440)) | l14;
    l1 = 3L;
    break L154;
   }
   l16 = ((l14 << 6) | ((l13 << 12) | ((l12 << 18) & 1835008))) | ((b[((int) l2) - 58909] & 0xff) & 63);
   l1 = 4L;
  }
  final int x163 = f180_10(m, l0, l1, l2, l3, l4, l7, l15, l16, l17, l18, l19);
  l0 = m.kept[0];
  l1 = m.kept[1];
  l7 = m.kept[2];
  l16 = (int) m.kept[3];
  l17 = (int) m.kept[4];
  l18 = (int) m.kept[5];
  l19 = (int) m.kept[6];
  switch (x163) {
  case 1: break L1;
  }
  L164: {
   L165: {
    if (l11 + Integer.MIN_VALUE > 2147483631) { break L165; }
    l16 = ((l13 << 6) | ((l12 << 12) & 61440)) | l14;
    l1 = 3L;
    break L164;
   }
   l16 = ((l14 << 6) | ((l13 << 12) | ((l12 << 18) & 1835008))) | ((b[((int) l2) - 58909] & 0xff) & 63);
   l1 = 4L;
  }
  final int x171 = f180_11(m, l0, l1, l2, l3, l4, l15, l16, l17, l18, l19);
  l0 = m.kept[0];
  l16 = (int) m.kept[1];
  l17 = (int) m.kept[2];
  l18 = (int) m.kept[3];
  l19 = (int) m.kept[4];
  switch (x171) {
  case 1: break L1;
  }
  L172: {
   L173: {
    if (l11 + Integer.MIN_VALUE > 2147483631) { break L173; }
    l16 = ((l13 << 6) | ((l12 << 12) & 61440)) | l14;
    l1 = 3L;
    break L172;
   }
   l16 = ((l14 << 6) | ((l13 << 12) | ((l12 << 18) & 1835008))) | ((b[((int) l2) - 58909] & 0xff) & 63);
   l1 = 4L;
  }
  final int x183 = f180_12(m, l0, l1, l2, l3, l4, l7, l15, l16, l17, l18, l19);
  l0 = m.kept[0];
  l1 = m.kept[1];
  l7 = m.kept[2];
  l16 = (int) m.kept[3];
  l17 = (int) m.kept[4];
  l18 = (int) m.kept[5];
  l19 = (int) m.kept[6];
  switch (x183) {
  case 1: break L1;
  }
  L184: {
   L185: {
    if (l11 + Integer.MIN_VALUE > 2147483631) { break L185; }
    l14 = ((l13 << 6) | ((l12 << 12) & 61440)) | l14;
    l1 = 3L;
    break L184;
   }
   l14 = ((l14 << 6) | ((l13 << 12) | ((l12 << 18) & 1835008))) | ((b[((int) l2) - 58909] & 0xff) & 63);
   l1 = 4L;
  }
  L186: {
   if (l3 == l1) { break L186; }
   if (l14 != 20108) { break L186; }
   if ((l14 = (int) b[((int) (l0 = l2 + l1)) - 58912]) > -1) { break L186; }
   if (l14 + Integer.MIN_VALUE < 2147483616) { break L186; }
   l16 = l14 & 255;
   l17 = (b[((int) l0) - 58911] & 0xff) & 63;
   l18 = (b[((int) l0) - 58910] & 0xff) & 63;
   L187: {
    L188: {
     if (l14 + Integer.MIN_VALUE < 2147483632) { break L188; }
     l14 = ((l18 << 6) | ((l17 << 12) | ((l16 << 18) & 1835008))) | ((b[((int) l0) - 58909] & 0xff) & 63);
     l0 = 4L;
     break L187;
    }
    l14 = ((l17 << 6) | ((l16 << 12) & 61440)) | l18;
    l0 = 3L;
   }
   if (l14 != 20843) { break L186; }
   if (l3 != (l0 + l1)) { break L186; }
   if (f157(m, 83828L, 1L, 84508L, 2L, l4, l5) != 0) { break L1; }
  }
  l14 = (b[((int) l2) - 58910] & 0xff) & 63;
  L189: {
   L190: {
    if (l11 + Integer.MIN_VALUE > 2147483631) { break L190; }
    l16 = ((l13 << 6) | ((l12 << 12) & 61440)) | l14;
    l1 = 3L;
    break L189;
   }
   l16 = ((l14 << 6) | ((l13 << 12) | ((l12 << 18) & 1835008))) | ((b[((int) l2) - 58909] & 0xff) & 63);
   l1 = 4L;
  }
  final int x200 = f180_13(m, l0, l1, l2, l3, l4, l5, l11, l12, l13, l14, l16, l17, l18, l19);
  l0 = m.kept[0];
  l1 = m.kept[1];
  l16 = (int) m.kept[2];
  l17 = (int) m.kept[3];
  l18 = (int) m.kept[4];
  l19 = (int) m.kept[5];
  switch (x200) {
  case 1: break L1;
  }
  L201: {
   L202: {
    if (l11 + Integer.MIN_VALUE > 2147483631) { break L202; }
    l16 = ((l13 << 6) | ((l12 << 12) & 61440)) | l14;
    l1 = 3L;
    break L201;
   }
   l16 = ((l14 << 6) | ((l13 << 12) | ((l12 << 18) & 1835008))) | ((b[((int) l2) - 58909] & 0xff) & 63);
   l1 = 4L;
  }
  final int x223 = f180_14(m, l0, l1, l2, l3, l4, l7, l11, l12, l13, l14, l15, l16, l17, l18, l19);
  l0 = m.kept[0];
  l1 = m.kept[1];
  l7 = m.kept[2];
  l15 = (int) m.kept[3];
  l16 = (int) m.kept[4];
  l17 = (int) m.kept[5];
  l18 = (int) m.kept[6];
  l19 = (int) m.kept[7];
  switch (x223) {
  case 1: break L1;
  }
  L224: {
   L225: {
    if (l11 + Integer.MIN_VALUE > 2147483631) { break L225; }
    l15 = ((l13 << 6) | ((l12 << 12) & 61440)) | l14;
    l1 = 3L;
    break L224;
   }
   l15 = ((l14 << 6) | ((l13 << 12) | ((l12 << 18) & 1835008))) | ((b[((int) l2) - 58909] & 0xff) & 63);
   l1 = 4L;
  }
  L226: {
   if (l3 == l1) { break L226; }
   if (l15 != 19968) { break L226; }
   if ((l15 = (int) b[((int) (l0 = l2 + l1)) - 58912]) > -1) { break L226; }
   if (l15 + Integer.MIN_VALUE < 2147483616) { break L226; }
   l16 = l15 & 255;
   l17 = (b[((int) l0) - 58911] & 0xff) & 63;
   l18 = (b[((int) l0) - 58910] & 0xff) & 63;
   L227: {
    L228: {
     if (l15 + Integer.MIN_VALUE < 2147483632) { break L228; }
     l15 = ((l18 << 6) | ((l17 << 12) | ((l16 << 18) & 1835008))) | ((b[((int) l0) - 58909] & 0xff) & 63);
     l0 = 4L;
     break L227;
    }
    l15 = ((l17 << 6) | ((l16 << 12) & 61440)) | l18;
    l0 = 3L;
   }
   if (l15 != 21315) { break L226; }
   if (l3 != (l0 + l1)) { break L226; }
   if (f157(m, 86044L, 1L, 83504L, 1L, l4, l5) != 0) { break L1; }
  }
  L229: {
   L230: {
    if (l11 + Integer.MIN_VALUE > 2147483631) { break L230; }
    l15 = ((l13 << 6) | ((l12 << 12) & 61440)) | l14;
    l1 = 3L;
    break L229;
   }
   l15 = ((l14 << 6) | ((l13 << 12) | ((l12 << 18) & 1835008))) | ((b[((int) l2) - 58909] & 0xff) & 63);
   l1 = 4L;
  }
  L231: {
   if (l3 == l1) { break L231; }
   if (l15 != 19977) { break L231; }
   if ((l15 = (int) b[((int) (l0 = l2 + l1)) - 58912]) > -1) { break L231; }
   if (l15 + Integer.MIN_VALUE < 2147483616) { break L231; }
   l16 = l15 & 255;
   l17 = (b[((int) l0) - 58911] & 0xff) & 63;
   l18 = (b[((int) l0) - 58910] & 0xff) & 63;
   L232: {
    L233: {
     if (l15 + Integer.MIN_VALUE < 2147483632) { break L233; }
     l15 = ((l18 << 6) | ((l17 << 12) | ((l16 << 18) & 1835008))) | ((b[((int) l0) - 58909] & 0xff) & 63);
     l0 = 4L;
     break L232;
    }
    l15 = ((l17 << 6) | ((l16 << 12) & 61440)) | l18;
    l0 = 3L;
   }
   if (l15 != 21313) { break L231; }
   if (l3 != (l0 + l1)) { break L231; }
   if (f157(m, 86536L, 1L, 86540L, 1L, l4, l5) != 0) { break L1; }
   if (f157(m, 83828L, 1L, 86544L, 1L, l4, l5) != 0) { break L1; }
  }
  L234: {
   L235: {
    if (l11 + Integer.MIN_VALUE > 2147483631) { break L235; }
    l15 = ((l13 << 6) | ((l12 << 12) & 61440)) | l14;
    l1 = 3L;
    break L234;
   }
   l15 = ((l14 << 6) | ((l13 << 12) | ((l12 << 18) & 1835008))) | ((b[((int) l2) - 58909] & 0xff) & 63);
   l1 = 4L;
  }
  L236: {
   if (l3 == l1) { break L236; }
   if (l15 != 22235) { break L236; }
   if ((l15 = (int) b[((int) (l0 = l2 + l1)) - 58912]) > -1) { break L236; }
   if (l15 + Integer.MIN_VALUE < 2147483616) { break L236; }
   l16 = l15 & 255;
   l17 = (b[((int) l0) - 58911] & 0xff) & 63;
   l18 = (b[((int) l0) - 58910] & 0xff) & 63;
   L237: {
    L238: {
     if (l15 + Integer.MIN_VALUE < 2147483632) { break L238; }
     l15 = ((l18 << 6) | ((l17 << 12) | ((l16 << 18) & 1835008))) | ((b[((int) l0) - 58909] & 0xff) & 63);
     l0 = 4L;
     break L237;
    }
    l15 = ((l17 << 6) | ((l16 << 12) & 61440)) | l18;
    l0 = 3L;
   }
   if (l15 != 21313) { break L236; }
   if (l3 != (l0 + l1)) { break L236; }
   if (f157(m, 86548L, 1L, 86552L, 1L, l4, l5) != 0) { break L1; }
  }
  L239: {
   L240: {
    if (l11 + Integer.MIN_VALUE > 2147483631) { break L240; }
    l15 = ((l13 << 6) | ((l12 << 12) & 61440)) | l14;
    l1 = 3L;
    break L239;
   }
   l15 = ((l14 << 6) | ((l13 << 12) | ((l12 << 18) & 1835008))) | ((b[((int) l2) - 58909] & 0xff) & 63);
   l1 = 4L;
  }
  L241: {
   if (l3 == l1) { break L241; }
   if (l15 != 20116) { break L241; }
   if ((l15 = (int) b[((int) (l0 = l2 + l1)) - 58912]) > -1) { break L241; }
   if (l15 + Integer.MIN_VALUE < 2147483616) { break L241; }
   l16 = l15 & 255;
   l17 = (b[((int) l0) - 58911] & 0xff) & 63;
   l18 = (b[((int) l0) - 58910] & 0xff) & 63;
   L242: {
    L243: {
     if (l15 + Integer.MIN_VALUE < 2147483632) { break L243; }
     l15 = ((l18 << 6) | ((l17 << 12) | ((l16 << 18) & 1835008))) | ((b[((int) l0) - 58909] & 0xff) & 63);
     l0 = 4L;
     break L242;
    }
    l15 = ((l17 << 6) | ((l16 << 12) & 61440)) | l18;
    l0 = 3L;
   }
   if (l15 != 21313) { break L241; }
   if (l3 != (l0 + l1)) { break L241; }
   if (f157(m, 86556L, 1L, 86560L, 1L, l4, l5) != 0) { break L1; }
  }
  L244: {
   L245: {
    if (l11 + Integer.MIN_VALUE > 2147483631) { break L245; }
    l15 = ((l13 << 6) | ((l12 << 12) & 61440)) | l14;
    l1 = 3L;
    break L244;
   }
   l15 = ((l14 << 6) | ((l13 << 12) | ((l12 << 18) & 1835008))) | ((b[((int) l2) - 58909] & 0xff) & 63);
   l1 = 4L;
  }
  L246: {
   if (l3 == l1) { break L246; }
   if (l15 != 21313) { break L246; }
   if ((l15 = (int) b[((int) (l0 = l2 + l1)) - 58912]) > -1) { break L246; }
   if (l15 + Integer.MIN_VALUE < 2147483616) { break L246; }
   l16 = l15 & 255;
   l17 = (b[((int) l0) - 58911] & 0xff) & 63;
   l18 = (b[((int) l0) - 58910] & 0xff) & 63;
   L247: {
    L248: {
     if (l15 + Integer.MIN_VALUE < 2147483632) { break L248; }
     l15 = ((l18 << 6) | ((l17 << 12) | ((l16 << 18) & 1835008))) | ((b[((int) l0) - 58909] & 0xff) & 63);
     l0 = 4L;
     break L247;
    }
    l15 = ((l17 << 6) | ((l16 << 12) & 61440)) | l18;
    l0 = 3L;
   }
   if (l15 != 20116) { break L246; }
   if (l3 != (l0 + l1)) { break L246; }
   if (f157(m, 86564L, 4L, 86580L, 1L, l4, l5) != 0) { break L1; }
  }
  L249: {
   L250: {
    if (l11 + Integer.MIN_VALUE > 2147483631) { break L250; }
    l15 = ((l13 << 6) | ((l12 << 12) & 61440)) | l14;
    l1 = 3L;
    break L249;
   }
   l15 = ((l14 << 6) | ((l13 << 12) | ((l12 << 18) & 1835008))) | ((b[((int) l2) - 58909] & 0xff) & 63);
   l1 = 4L;
  }
  final int x256 = f180_15(m, l0, l1, l2, l3, l5, l15, l16, l17, l18);
  l0 = m.kept[0];
  l1 = m.kept[1];
  l5 = m.kept[2];
  l15 = (int) m.kept[3];
  l16 = (int) m.kept[4];
  l17 = (int) m.kept[5];
  l18 = (int) m.kept[6];
  switch (x256) {
  case 1: break L1;
  }
  L257: {
   L258: {
    if (l11 + Integer.MIN_VALUE > 2147483631) { break L258; }
    l15 = ((l13 << 6) | ((l12 << 12) & 61440)) | l14;
    l1 = 3L;
    break L257;
   }
   l15 = ((l14 << 6) | ((l13 << 12) | ((l12 << 18) & 1835008))) | ((b[((int) l2) - 58909] & 0xff) & 63);
   l1 = 4L;
  }
  L259: {
   if (l3 == l1) { break L259; }
   if (l15 != 20159) { break L259; }
   if ((l15 = (int) b[((int) (l0 = l2 + l1)) - 58912]) > -1) { break L259; }
   if (l15 + Integer.MIN_VALUE < 2147483616) { break L259; }
   l16 = l15 & 255;
   l17 = (b[((int) l0) - 58911] & 0xff) & 63;
   l18 = (b[((int) l0) - 58910] & 0xff) & 63;
   L260: {
    L261: {
     if (l15 + Integer.MIN_VALUE < 2147483632) { break L261; }
     l15 = ((l18 << 6) | ((l17 << 12) | ((l16 << 18) & 1835008))) | ((b[((int) l0) - 58909] & 0xff) & 63);
     l0 = 4L;
     break L260;
    }
    l15 = ((l17 << 6) | ((l16 << 12) & 61440)) | l18;
    l0 = 3L;
   }
   if (l15 != 19975) { break L259; }
   if (l3 == (l0 + l1)) { break L1; }
  }
  L262: {
   L263: {
    if (l11 + Integer.MIN_VALUE > 2147483631) { break L263; }
    l10 = ((l13 << 6) | ((l12 << 12) & 61440)) | l14;
    l1 = 3L;
    break L262;
   }
   l10 = ((l14 << 6) | ((l13 << 12) | ((l12 << 18) & 1835008))) | ((b[((int) l2) - 58909] & 0xff) & 63);
   l1 = 4L;
  }
  L264: {
   if (l3 != l1) { break L264; }
   m.g0 = l6;
   return 0;
  }
  L265: {
   if (l10 == 20740) { break L265; }
   m.g0 = l6;
   return 0;
  }
  L266: {
   if ((l10 = (int) b[((int) (l2 = l2 + l1)) - 58912]) <= -1) { break L266; }
   m.g0 = l6;
   return 0;
  }
  L267: {
   if (l10 + Integer.MIN_VALUE >= 2147483616) { break L267; }
   m.g0 = l6;
   return 0;
  }
  l11 = l10 & 255;
  l12 = (b[((int) l2) - 58911] & 0xff) & 63;
  l13 = (b[((int) l2) - 58910] & 0xff) & 63;
  L268: {
   L269: {
    if (l10 + Integer.MIN_VALUE < 2147483632) { break L269; }
    l11 = ((l13 << 6) | ((l12 << 12) | ((l11 << 18) & 1835008))) | ((b[((int) l2) - 58909] & 0xff) & 63);
    l2 = 4L;
    break L268;
   }
   l11 = ((l12 << 6) | ((l11 << 12) & 61440)) | l13;
   l2 = 3L;
  }
  l10 = 0;
  if (l11 != 33836) { break L1; }
  l10 = (l3 == (l2 + l1)) ? 1 : 0;
 }
 m.g0 = l6;
 return l10;
}

static int f181(State m, int l0) {
 final byte[] b = m.bytes;
 long l1 = 0;
 long l2 = 0;
 int l3 = 0;
 m.g0 = l1 = m.g0 - 16L;
 L1: {
  if ((l1 = l1) < 16L) { break L1; }
  Core2.f63(m, l1 + 8L, l0);
  l3 = 1;
  L2: {
   if ((l0 + -65296) + Integer.MIN_VALUE < -2147483638) { break L2; }
   if (((b[((int) l1) - 58904] & 0xff) & 255) == 1) { break L2; }
   L3: {
    if (l0 != 21317) { break L3; }
    l3 = 1;
    break L2;
   }
   L4: {
    if (l0 != 24319) { break L4; }
    l3 = 1;
    break L2;
   }
   L5: {
    if ((l0 + -2048) + Integer.MIN_VALUE > -2147420161) { break L5; }
    if (Words.get32(b, State.far((int) (l2 = ((((l3 = (((l0 >>> 12) | ((l0 << 2) & 16128)) | ((l0 << 16) & 4128768)) | 8421600) & 0xffffffffL) * 953497L) >>> 22L) & 1016L), 66852)) != l3) { break L5; }
    if (((b[((int) (l2 + 66856L)) - 58912] & 0xff) & 255) != 1) { break L5; }
    if (((b[((int) (l2 + 66857L)) - 58912] & 0xff) & 255) == 0) { break L5; }
    l3 = 1;
    break L2;
   }
   L6: {
    L7: {
     if (l0 > 28856) { break L7; }
     l3 = 1;
     L8: {
      switch (l0 + -37) {
      case 0: case 9: break L2;
      case 1: case 2: case 3: case 4: case 5: case 6: case 7: case 8: break L6;
      default: break L8;
      }
     }
     L9: {
      if (l0 != 20043) { break L9; }
      l3 = 1;
      break L2;
     }
     l3 = 1;
     if (l0 != 20998) { break L6; }
     break L2;
    }
    l3 = 1;
    L10: {
     switch (l0 + -65285) {
     case 0: case 9: break L2;
     case 1: case 2: case 3: case 4: case 5: case 6: case 7: case 8: break L6;
     default: break L10;
     }
    }
    L11: {
     if (l0 != 28857) { break L11; }
     l3 = 1;
     break L2;
    }
    l3 = 1;
    if (l0 == 40670) { break L2; }
   }
   l3 = 0;
  }
  m.g0 = l1 + 16L;
  final int t12 = l3;
  return t12;
 }
 throw State.trap();
}
}
