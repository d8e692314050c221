// The proved module for WebAssembly as Java; made by bindings/java/core.py.
package chinesenumber;

final class Core8 {
static void f252(State m, long l0, long l1, int l2, long l3, long l4) {
 final byte[] b = m.bytes;
 long l5 = 0;
 long l6 = 0;
 long l7 = 0;
 long l8 = 0;
 long l9 = 0;
 long l10 = 0;
 long l11 = 0;
 long l12 = 0;
 int l13 = 0;
 int l14 = 0;
 int l15 = 0;
 int l16 = 0;
 int l17 = 0;
 int l18 = 0;
 m.g0 = l5 = m.g0 - 240L;
 L1: {
  L2: {
   L3: {
    L4: {
     L5: {
      L6: {
       if ((l5 = l5) < 16L) { break L6; }
       Words.put64(b, ((int) l5) - 58808, 0L);
       Words.put64(b, ((int) l5) - 58816, 0L);
       Words.put64(b, ((int) l5) - 58824, 0L);
       Words.put64(b, ((int) l5) - 58832, 0L);
       Words.put64(b, ((int) l5) - 58840, 0L);
       Core7.f245(m, l5 + 72L, l3, l4);
       if ((b[((int) l5) - 58840] & 0xff) != 1) { break L2; }
       l6 = Words.get64(b, ((int) l5) - 58808);
       l7 = Words.get64(b, ((int) l5) - 58816);
       l8 = Words.get64(b, ((int) l5) - 58824);
       l9 = Words.get64(b, ((int) l5) - 58832);
       Words.put64(b, ((int) l5) - 58744, 0L);
       Words.put64(b, ((int) l5) - 58752, 0L);
       Words.put64(b, ((int) l5) - 58760, 0L);
       Words.put64(b, ((int) l5) - 58768, 0L);
       Words.put64(b, ((int) l5) - 58776, 0L);
       Words.put64(b, ((int) l5) - 58784, 0L);
       Words.put64(b, ((int) l5) - 58792, 0L);
       Words.put64(b, ((int) l5) - 58800, 0L);
       Core3.f80(m, l5 + 112L, l3, l4, l2);
       l13 = 0;
       if ((b[((int) l5) - 58800] & 0xff) != 0) { break L1; }
       l10 = Words.get64(b, ((int) l5) - 58776);
       l11 = Words.get64(b, ((int) l5) - 58784);
       l14 = b[((int) l5) - 58752] & 0xff;
       l4 = l7;
       l12 = l6;
       L7: {
        L8: while (true) {
         if (l12 == 0L) { break L7; }
         l16 = (l15 = (int) b[((int) l4) - 58912]) & 255;
         l3 = 1L;
         L9: {
          if (l15 > -1) { break L9; }
          l17 = (b[((int) l4) - 58911] & 0xff) & 63;
          L10: {
           if (l15 + Integer.MIN_VALUE > 2147483615) { break L10; }
           l16 = ((l16 << 6) & 1984) | l17;
           l3 = 2L;
           break L9;
          }
          l18 = (b[((int) l4) - 58910] & 0xff) & 63;
          L11: {
           if (l15 + Integer.MIN_VALUE > 2147483631) { break L11; }
           l16 = ((l17 << 6) | ((l16 << 12) & 61440)) | l18;
           l3 = 3L;
           break L9;
          }
          l16 = ((l18 << 6) | ((l17 << 12) | ((l16 << 18) & 1835008))) | ((b[((int) l4) - 58909] & 0xff) & 63);
          l3 = 4L;
         }
         Core2.f61(m, l5 + 48L, l16);
         L12: {
          if ((b[((int) l5) - 58864] & 0xff) != 1) { break L12; }
          l12 = l12 - l3;
          l4 = l4 + l3;
          if (((b[((int) l5) - 58863] & 0xff) & 255) + Integer.MIN_VALUE > -2147483647) { continue L8; }
         }
         break L8;
        }
        if (l6 == 0L) { break L5; }
        l16 = (l15 = (int) b[((int) l7) - 58912]) & 255;
        l4 = 1L;
        L13: {
         if (l15 > -1) { break L13; }
         l17 = (b[((int) l7) - 58911] & 0xff) & 63;
         L14: {
          if (l15 + Integer.MIN_VALUE > 2147483615) { break L14; }
          l16 = ((l16 << 6) & 1984) | l17;
          l4 = 2L;
          break L13;
         }
         l18 = (b[((int) l7) - 58910] & 0xff) & 63;
         L15: {
          if (l15 + Integer.MIN_VALUE > 2147483631) { break L15; }
          l16 = ((l17 << 6) | ((l16 << 12) & 61440)) | l18;
          l4 = 3L;
          break L13;
         }
         l16 = ((l18 << 6) | ((l17 << 12) | ((l16 << 18) & 1835008))) | ((b[((int) l7) - 58909] & 0xff) & 63);
         l4 = 4L;
        }
        L16: {
         L17: {
          if (l16 > 35999) { break L17; }
          if (l16 == 45) { break L16; }
          if (l16 == 8722) { break L16; }
          break L5;
         }
         if (l16 == 36000) { break L16; }
         if (l16 == 65293) { break L16; }
         if (l16 != 36127) { break L5; }
        }
        Core2.f53(m, l1, 77252L, 1L);
        f253(m, l5 + 40L, l1, l2, l7 + l4, l6 - l4);
        l16 = b[((int) l5) - 58871] & 0xff;
        break L4;
       }
       Words.put64(b, ((int) l5) - 58696, 0L);
       Words.put64(b, ((int) l5) - 58704, 1L);
       Words.put64(b, ((int) l5) - 58720, l11);
       Words.put64(b, ((int) l5) - 58688, 0L);
       Words.put64(b, ((int) l5) - 58680, 0L);
       Words.put64(b, ((int) l5) - 58712, l10);
       m.fill((int) (l5 + 112L), 0, (int) 80L);
       Core2.f52(m, l5 + 16L, l5 + 112L, l5 + 192L);
       Core2.f53(m, l1, Words.get64(b, ((int) l5) - 58896), Words.get64(b, ((int) l5) - 58888));
       break L3;
      }
      throw State.trap();
     }
     f253(m, l5 + 32L, l1, l2, l7, l6);
     l16 = b[((int) l5) - 58879] & 0xff;
    }
    if ((l16 & 1) == 0) { break L1; }
   }
   L18: {
    if ((l14 & 255) != 2) { break L18; }
    Core2.f53(m, l1, 77254L, 1L);
    l13 = 1;
    break L1;
   }
   Words.put64(b, ((int) l5) - 58744, 0L);
   Words.put64(b, ((int) l5) - 58752, 0L);
   Words.put64(b, ((int) l5) - 58760, 0L);
   Words.put64(b, ((int) l5) - 58768, 0L);
   Words.put64(b, ((int) l5) - 58776, 0L);
   Words.put64(b, ((int) l5) - 58784, 0L);
   Words.put64(b, ((int) l5) - 58792, 0L);
   Words.put64(b, ((int) l5) - 58800, 0L);
   Core3.f80(m, l5 + 112L, l9, l8, l2);
   if ((b[((int) l5) - 58800] & 0xff) != 0) { break L1; }
   final int t19 = (Words.get64(b, ((int) l5) - 58784) + Long.MIN_VALUE > -9223372036854774809L) ? 1 : 0;
   final int t20 = ((l4 = Words.get64(b, ((int) l5) - 58776)) > 0L) ? 1 : 0;
   final int t21 = (l4 == 0L) ? 1 : 0;
   if ((t21 != 0 ? t19 : t20) != 0) { break L1; }
   Core2.f53(m, l1, 77253L, 1L);
   f253(m, l5 + 8L, l1, l2, l9, l8);
   l13 = b[((int) l5) - 58903] & 0xff;
   break L1;
  }
  L22: {
   if (!(l4 == 0L)) { break L22; }
   l13 = 0;
   break L1;
  }
  L23: {
   if ((l16 = (int) b[((int) (l3 + (l12 = l4 + -1L))) - 58912]) >= 0) { break L23; }
   l12 = -2L;
   L24: {
    if ((b[((int) ((l7 = l3 + l4) + -2L)) - 58912] & 0xff) + Integer.MIN_VALUE > -2147483457) { break L24; }
    l12 = ((b[((int) (l7 + -3L)) - 58912] & 0xff) + Integer.MIN_VALUE > -2147483457) ? -3L : -4L;
   }
   l16 = (l15 = (int) b[((int) (l7 = l3 + (l12 = l12 + l4))) - 58912]) & 255;
   if (l15 > -1) { break L23; }
   l13 = (b[((int) l7) - 58911] & 0xff) & 63;
   L25: {
    if (l15 + Integer.MIN_VALUE > 2147483615) { break L25; }
    l16 = ((l16 << 6) & 1984) | l13;
    break L23;
   }
   l17 = (b[((int) l7) - 58910] & 0xff) & 63;
   L26: {
    if (l15 + Integer.MIN_VALUE > 2147483631) { break L26; }
    l16 = ((l13 << 6) | ((l16 << 12) & 61440)) | l17;
    break L23;
   }
   l16 = ((l17 << 6) | ((l13 << 12) | ((l16 << 18) & 1835008))) | ((b[((int) l7) - 58909] & 0xff) & 63);
  }
  L27: {
   L28: {
    if (l16 == 37) { break L28; }
    if (l16 == 65285) { break L28; }
    if (l16 != 8240) { break L27; }
   }
   f253(m, l5 + 64L, l1, l2, l3, l12);
   l13 = 1;
   L29: {
    if (((b[((int) l5) - 58847] & 0xff) & 1) != 0) { break L29; }
    l13 = 0;
    break L1;
   }
   Core2.f53(m, l1, l3 + l12, l4 - l12);
   break L1;
  }
  f253(m, l5 + 56L, l1, l2, l3, l4);
  l13 = b[((int) l5) - 58855] & 0xff;
 }
 b[((int) l0) - 58911] = (byte) l13;
 b[((int) l0) - 58912] = (byte) 0;
 m.g0 = l5 + 240L;
}

static void f253(State m, long l0, long l1, int l2, long l3, long l4) {
 final byte[] b = m.bytes;
 long l5 = 0;
 long l6 = 0;
 long l7 = 0;
 long l8 = 0;
 long l9 = 0;
 long l10 = 0;
 long l11 = 0;
 long l12 = 0;
 int l13 = 0;
 int l14 = 0;
 int l15 = 0;
 int l16 = 0;
 int l17 = 0;
 int l18 = 0;
 m.g0 = l5 = m.g0 - 320L;
 L1: {
  L2: {
   L3: {
    L4: {
     L5: {
      if ((l5 = l5) < 16L) { break L5; }
      Words.put64(b, ((int) l5) - 58792, 0L);
      Words.put64(b, ((int) l5) - 58800, 0L);
      Words.put64(b, ((int) l5) - 58808, 0L);
      Words.put64(b, ((int) l5) - 58816, 0L);
      Words.put64(b, ((int) l5) - 58824, 0L);
      l6 = l3;
      l7 = l4;
      L6: {
       if ((l13 = (l4 == 0L) ? 1 : 0) != 0) { break L6; }
       l15 = (l14 = (int) b[((int) l3) - 58912]) & 255;
       L7: {
        if (l14 > -1) { break L7; }
        l16 = (b[((int) l3) - 58911] & 0xff) & 63;
        L8: {
         if (l14 + Integer.MIN_VALUE > 2147483615) { break L8; }
         l15 = ((l15 << 6) & 1984) | l16;
         break L7;
        }
        l17 = (b[((int) l3) - 58910] & 0xff) & 63;
        L9: {
         if (l14 + Integer.MIN_VALUE > 2147483631) { break L9; }
         l15 = ((l16 << 6) | ((l15 << 12) & 61440)) | l17;
         break L7;
        }
        l15 = ((l17 << 6) | ((l16 << 12) | ((l15 << 18) & 1835008))) | ((b[((int) l3) - 58909] & 0xff) & 63);
       }
       L10: {
        if ((l15 + -48) + Integer.MIN_VALUE < -2147483638) { break L10; }
        l6 = l3;
        l7 = l4;
        if ((l15 + -65296) + Integer.MIN_VALUE >= -2147483638) { break L6; }
       }
       Core2.f53(m, l1, l3, l4);
       break L2;
      }
      L11: while (true) {
       if (l7 == 0L) { break L4; }
       l15 = (l14 = (int) b[((int) l6) - 58912]) & 255;
       l8 = 1L;
       L12: {
        if (l14 > -1) { break L12; }
        l16 = (b[((int) l6) - 58911] & 0xff) & 63;
        L13: {
         if (l14 + Integer.MIN_VALUE > 2147483615) { break L13; }
         l15 = ((l15 << 6) & 1984) | l16;
         l8 = 2L;
         break L12;
        }
        l17 = (b[((int) l6) - 58910] & 0xff) & 63;
        L14: {
         if (l14 + Integer.MIN_VALUE > 2147483631) { break L14; }
         l15 = ((l16 << 6) | ((l15 << 12) & 61440)) | l17;
         l8 = 3L;
         break L12;
        }
        l15 = ((l17 << 6) | ((l16 << 12) | ((l15 << 18) & 1835008))) | ((b[((int) l6) - 58909] & 0xff) & 63);
        l8 = 4L;
       }
       Core2.f63(m, l5 + 80L, l15);
       L15: {
        if ((l15 + -58) + Integer.MIN_VALUE > 2147483637) { break L15; }
        l7 = l7 - l8;
        l6 = l6 + l8;
        if (((b[((int) l5) - 58832] & 0xff) & 255) == 1) { continue L11; }
       }
       break L11;
      }
      Core7.f247(m, l5 + 88L, l3, l4);
      L16: {
       if ((b[((int) l5) - 58824] & 0xff) != 1) { break L16; }
       l7 = Words.get64(b, ((int) l5) - 58792);
       l9 = Words.get64(b, ((int) l5) - 58800);
       l6 = Words.get64(b, ((int) l5) - 58808);
       l8 = Words.get64(b, ((int) l5) - 58816);
       Words.put64(b, ((int) l5) - 58616, 0L);
       Words.put64(b, ((int) l5) - 58624, 0L);
       Words.put64(b, ((int) l5) - 58632, 0L);
       Words.put64(b, ((int) l5) - 58640, 0L);
       Words.put64(b, ((int) l5) - 58648, 0L);
       Words.put64(b, ((int) l5) - 58656, 0L);
       Words.put64(b, ((int) l5) - 58664, 0L);
       Words.put64(b, ((int) l5) - 58672, 0L);
       Core3.f80(m, l5 + 240L, l8, l6, l2);
       Words.put64(b, ((int) l5) - 58784, Words.get64(b, ((int) l5) - 58656));
       Words.put64(b, ((int) l5) - 58776, Words.get64(b, ((int) l5) - 58648));
       Words.put64(b, ((int) l5) - 58768, Words.get64(b, ((int) l5) - 58640));
       Words.put64(b, ((int) l5) - 58760, Words.get64(b, ((int) l5) - 58632));
       Words.put64(b, ((int) l5) - 58752, Words.get64(b, ((int) l5) - 58624));
       Words.put64(b, ((int) l5) - 58744, Words.get64(b, ((int) l5) - 58616));
       L17: {
        if ((b[((int) l5) - 58672] & 0xff) == 0) { break L17; }
        l18 = 0;
        break L1;
       }
       m.fill((int) (l5 + 240L), 0, (int) 80L);
       Core2.f52(m, l5 + 8L, l5 + 240L, l5 + 128L);
       Core2.f53(m, l1, Words.get64(b, ((int) l5) - 58904), Words.get64(b, ((int) l5) - 58896));
       Core2.f53(m, l1, 98142L, 1L);
       f254(m, l1, l9, l7);
       break L2;
      }
      L18: {
       if (Core7.f248(m, l3, l4) == 0) { break L18; }
       l18 = 1;
       if (l13 != 0) { break L1; }
       l10 = l5 + 256L;
       l11 = l3;
       l12 = l4;
       L19: while (true) {
        l15 = (l14 = (int) b[((int) l11) - 58912]) & 255;
        l6 = 1L;
        L20: {
         if (l14 > -1) { break L20; }
         l16 = (b[((int) l11) - 58911] & 0xff) & 63;
         L21: {
          if (l14 + Integer.MIN_VALUE > 2147483615) { break L21; }
          l15 = ((l15 << 6) & 1984) | l16;
          l6 = 2L;
          break L20;
         }
         l17 = (b[((int) l11) - 58910] & 0xff) & 63;
         L22: {
          if (l14 + Integer.MIN_VALUE > 2147483631) { break L22; }
          l15 = ((l16 << 6) | ((l15 << 12) & 61440)) | l17;
          l6 = 3L;
          break L20;
         }
         l15 = ((l17 << 6) | ((l16 << 12) | ((l15 << 18) & 1835008))) | ((b[((int) l11) - 58909] & 0xff) & 63);
         l6 = 4L;
        }
        L23: {
         if (Core7.f249(m, l15, l11 = l11 + l6, l12 = l12 - l6) == 0) { break L23; }
         l6 = l3;
         l9 = 0L;
         L24: {
          if ((l4 = l4 - l12) == 0L) { break L24; }
          l7 = l4;
          l6 = l3;
          L25: while (true) {
           l15 = (l14 = (int) b[((int) l6) - 58912]) & 255;
           l8 = 1L;
           L26: {
            if (l14 > -1) { break L26; }
            l16 = (b[((int) l6) - 58911] & 0xff) & 63;
            L27: {
             if (l14 + Integer.MIN_VALUE > 2147483615) { break L27; }
             l15 = ((l15 << 6) & 1984) | l16;
             l8 = 2L;
             break L26;
            }
            l17 = (b[((int) l6) - 58910] & 0xff) & 63;
            L28: {
             if (l14 + Integer.MIN_VALUE > 2147483631) { break L28; }
             l15 = ((l16 << 6) | ((l15 << 12) & 61440)) | l17;
             l8 = 3L;
             break L26;
            }
            l15 = ((l17 << 6) | ((l16 << 12) | ((l15 << 18) & 1835008))) | ((b[((int) l6) - 58909] & 0xff) & 63);
            l8 = 4L;
           }
           L29: {
            if (l15 == 38646) { break L29; }
            if (l15 == 12295) { break L29; }
            l9 = l7;
            break L24;
           }
           l6 = l6 + l8;
           l9 = 0L;
           if ((l7 = l7 - l8) != 0L) { continue L25; }
           break L25;
          }
         }
         Core2.f53(m, l1, l3, l4 - l9);
         Words.put64(b, ((int) l5) - 58696, 0L);
         Words.put64(b, ((int) l5) - 58704, 0L);
         Words.put64(b, ((int) l5) - 58712, 0L);
         Words.put64(b, ((int) l5) - 58720, 0L);
         Core7.f250(m, l5 + 192L, l6, l9);
         l7 = Words.get64(b, ((int) l5) - 58696);
         l9 = Words.get64(b, ((int) l5) - 58704);
         l6 = Words.get64(b, ((int) l5) - 58712);
         l8 = Words.get64(b, ((int) l5) - 58720);
         Words.put64(b, ((int) l5) - 58616, 0L);
         Words.put64(b, ((int) l5) - 58624, 0L);
         Words.put64(b, ((int) l5) - 58632, 0L);
         Words.put64(b, ((int) l5) - 58640, 0L);
         Words.put64(b, ((int) l5) - 58648, 0L);
         Words.put64(b, ((int) l5) - 58656, 0L);
         Words.put64(b, ((int) l5) - 58664, 0L);
         Words.put64(b, ((int) l5) - 58672, 0L);
         Core3.f80(m, l5 + 240L, l8, l6, l2);
         Words.put64(b, ((int) l5) - 58784, Words.get64(b, ((int) l10) - 58912));
         Words.put64(b, ((int) l5) - 58776, Words.get64(b, ((int) l10) - 58904));
         Words.put64(b, ((int) l5) - 58768, Words.get64(b, ((int) l10) - 58896));
         Words.put64(b, ((int) l5) - 58760, Words.get64(b, ((int) l10) - 58888));
         Words.put64(b, ((int) l5) - 58752, Words.get64(b, ((int) l10) - 58880));
         Words.put64(b, ((int) l5) - 58744, Words.get64(b, ((int) l10) - 58872));
         if ((b[((int) l5) - 58672] & 0xff) != 0) { break L3; }
         m.fill((int) (l5 + 240L), 0, (int) 80L);
         Core2.f52(m, l5 + 24L, l5 + 240L, l5 + 128L);
         Core2.f53(m, l1, Words.get64(b, ((int) l5) - 58888), Words.get64(b, ((int) l5) - 58880));
         Core2.f53(m, l1, l9, l7);
         l4 = l12;
         l3 = l11;
        }
        if (!(l12 == 0L)) { continue L19; }
        break L1;
       }
      }
      Words.put64(b, ((int) l5) - 58728, 0L);
      Words.put64(b, ((int) l5) - 58736, 0L);
      Words.put64(b, ((int) l5) - 58744, 0L);
      Words.put64(b, ((int) l5) - 58752, 0L);
      Words.put64(b, ((int) l5) - 58760, 0L);
      Words.put64(b, ((int) l5) - 58768, 0L);
      Words.put64(b, ((int) l5) - 58776, 0L);
      Words.put64(b, ((int) l5) - 58784, 0L);
      Core7.f251(m, l5 + 128L, l3, l4);
      L30: {
       L31: {
        if ((b[((int) l5) - 58784] & 0xff) != 1) { break L31; }
        l7 = Words.get64(b, ((int) l5) - 58728);
        l9 = Words.get64(b, ((int) l5) - 58736);
        l3 = Words.get64(b, ((int) l5) - 58744);
        l4 = Words.get64(b, ((int) l5) - 58752);
        l15 = Words.get32(b, ((int) l5) - 58760);
        l6 = Words.get64(b, ((int) l5) - 58768);
        l8 = Words.get64(b, ((int) l5) - 58776);
        Words.put64(b, ((int) l5) - 58616, 0L);
        Words.put64(b, ((int) l5) - 58624, 0L);
        Words.put64(b, ((int) l5) - 58632, 0L);
        Words.put64(b, ((int) l5) - 58640, 0L);
        Words.put64(b, ((int) l5) - 58648, 0L);
        Words.put64(b, ((int) l5) - 58656, 0L);
        Words.put64(b, ((int) l5) - 58664, 0L);
        Words.put64(b, ((int) l5) - 58672, 0L);
        Core3.f80(m, l5 + 240L, l8, l6, l2);
        Words.put64(b, ((int) l5) - 58720, Words.get64(b, ((int) l5) - 58656));
        Words.put64(b, ((int) l5) - 58712, Words.get64(b, ((int) l5) - 58648));
        Words.put64(b, ((int) l5) - 58704, Words.get64(b, ((int) l5) - 58640));
        Words.put64(b, ((int) l5) - 58696, Words.get64(b, ((int) l5) - 58632));
        Words.put64(b, ((int) l5) - 58688, Words.get64(b, ((int) l5) - 58624));
        Words.put64(b, ((int) l5) - 58680, Words.get64(b, ((int) l5) - 58616));
        if ((b[((int) l5) - 58672] & 0xff) == 0) { break L30; }
        l18 = 0;
        break L1;
       }
       Words.put64(b, ((int) l5) - 58616, 0L);
       Words.put64(b, ((int) l5) - 58624, 0L);
       Words.put64(b, ((int) l5) - 58632, 0L);
       Words.put64(b, ((int) l5) - 58640, 0L);
       Words.put64(b, ((int) l5) - 58648, 0L);
       Words.put64(b, ((int) l5) - 58656, 0L);
       Words.put64(b, ((int) l5) - 58664, 0L);
       Words.put64(b, ((int) l5) - 58672, 0L);
       Core3.f80(m, l5 + 240L, l3, l4, l2);
       Words.put64(b, ((int) l5) - 58720, Words.get64(b, ((int) l5) - 58656));
       Words.put64(b, ((int) l5) - 58712, Words.get64(b, ((int) l5) - 58648));
       Words.put64(b, ((int) l5) - 58704, Words.get64(b, ((int) l5) - 58640));
       Words.put64(b, ((int) l5) - 58696, Words.get64(b, ((int) l5) - 58632));
       Words.put64(b, ((int) l5) - 58688, Words.get64(b, ((int) l5) - 58624));
       Words.put64(b, ((int) l5) - 58680, Words.get64(b, ((int) l5) - 58616));
       l18 = 0;
       if ((b[((int) l5) - 58672] & 0xff) != 0) { break L1; }
       m.fill((int) (l5 + 240L), 0, (int) 80L);
       Core2.f52(m, l5 + 64L, l5 + 240L, l5 + 192L);
       Core2.f53(m, l1, Words.get64(b, ((int) l5) - 58848), Words.get64(b, ((int) l5) - 58840));
       break L2;
      }
      m.fill((int) (l5 + 240L), 0, (int) 80L);
      Core2.f52(m, l5 + 48L, l5 + 240L, l5 + 192L);
      Core2.f53(m, l1, Words.get64(b, ((int) l5) - 58864), Words.get64(b, ((int) l5) - 58856));
      Core2.f53(m, l1, 98142L, 1L);
      Core2.f63(m, l5 + 40L, l15);
      L32: {
       L33: {
        if ((b[((int) l5) - 58872] & 0xff) != 1) { break L33; }
        Core2.f53(m, l1, Words.get64(b, State.far((int) ((((b[((int) l5) - 58871] & 0xff) & 0xffffffffL) & 255L) << 3L), 102816)), 1L);
        break L32;
       }
       Core2.f53(m, l1, l4, l3);
      }
      Core2.f53(m, l1, l9, l7);
      break L2;
     }
     throw State.trap();
    }
    f254(m, l1, l3, l4);
    break L2;
   }
   l18 = 0;
   break L1;
  }
  l18 = 1;
 }
 b[((int) l0) - 58911] = (byte) l18;
 b[((int) l0) - 58912] = (byte) 0;
 m.g0 = l5 + 320L;
}

static void f254(State m, long l0, long l1, long l2) {
 final byte[] b = m.bytes;
 long l3 = 0;
 long l4 = 0;
 int l5 = 0;
 int l6 = 0;
 int l7 = 0;
 int l8 = 0;
 m.g0 = l3 = m.g0 - 16L;
 L1: {
  if ((l4 = l3) < 16L) { break L1; }
  L2: {
   if (l2 == 0L) { break L2; }
   L3: while (true) {
    l6 = (l5 = (int) b[((int) l1) - 58912]) & 255;
    l3 = 1L;
    L4: {
     if (l5 > -1) { break L4; }
     l7 = (b[((int) l1) - 58911] & 0xff) & 63;
     L5: {
      if (l5 + Integer.MIN_VALUE > 2147483615) { break L5; }
      l6 = ((l6 << 6) & 1984) | l7;
      l3 = 2L;
      break L4;
     }
     l8 = (b[((int) l1) - 58910] & 0xff) & 63;
     L6: {
      if (l5 + Integer.MIN_VALUE > 2147483631) { break L6; }
      l6 = ((l7 << 6) | ((l6 << 12) & 61440)) | l8;
      l3 = 3L;
      break L4;
     }
     l6 = ((l8 << 6) | ((l7 << 12) | ((l6 << 18) & 1835008))) | ((b[((int) l1) - 58909] & 0xff) & 63);
     l3 = 4L;
    }
    Core2.f63(m, l4 + 8L, l6);
    l2 = l2 - l3;
    L7: {
     L8: {
      if ((b[((int) l4) - 58904] & 0xff) != 1) { break L8; }
      Core2.f53(m, l0, Words.get64(b, State.far((int) ((((b[((int) l4) - 58903] & 0xff) & 0xffffffffL) & 255L) << 3L), 102816)), 1L);
      break L7;
     }
     Core2.f53(m, l0, l1, l3);
    }
    l1 = l1 + l3;
    if (l2 != 0L) { continue L3; }
    break L3;
   }
  }
  m.g0 = l4 + 16L;
  return;
 }
 throw State.trap();
}

static void f255(State m, long l0, long l1, long l2, int l3) {
 final byte[] b = m.bytes;
 long l4 = 0;
 long l5 = 0;
 long l6 = 0;
 int l7 = 0;
 int l8 = 0;
 int l9 = 0;
 m.g0 = l4 = m.g0 - 240L;
 L1: {
  L2: {
   if ((l4 = l4) < 16L) { break L2; }
   Words.put64(b, ((int) l4) - 58856, 0L);
   Words.put64(b, ((int) l4) - 58864, 0L);
   Words.put64(b, ((int) l4) - 58872, 0L);
   Words.put64(b, ((int) l4) - 58880, 0L);
   Words.put64(b, ((int) l4) - 58888, 0L);
   Words.put64(b, ((int) l4) - 58896, 0L);
   Words.put64(b, ((int) l4) - 58904, 0L);
   Words.put64(b, ((int) l4) - 58912, 0L);
   Core3.f80(m, l4, l1, l2, l3);
   l7 = 1;
   L3: {
    L4: {
     L5: {
      if ((b[((int) l4) - 58912] & 0xff) != 1) { break L5; }
      l8 = 0;
      l9 = 1;
      L6: {
       L7: {
        switch ((int) (b[((int) l4) - 58904] & 0xffL)) {
        case 1: break L4;
        case 2: break L3;
        case 3: break L7;
        default: break L6;
        }
       }
       l9 = 2;
       break L3;
      }
      l8 = 0;
      l9 = 0;
      break L3;
     }
     Words.put16(b, ((int) l0) - 58912, (short) 0);
     b[((int) (l0 + 2L)) - 58912] = (byte) 0;
     break L1;
    }
    Words.put16(b, ((int) l4) - 58768, (short) 0);
    b[((int) l4) - 58766] = (byte) 0;
    Words.put64(b, ((int) l4) - 58800, 0L);
    Words.put64(b, ((int) l4) - 58792, 0L);
    Words.put64(b, ((int) l4) - 58784, 0L);
    Words.put64(b, ((int) l4) - 58776, 0L);
    Words.put64(b, ((int) l4) - 58848, 0L);
    Words.put64(b, ((int) l4) - 58840, 0L);
    Words.put64(b, ((int) l4) - 58832, 0L);
    Words.put64(b, ((int) l4) - 58824, 0L);
    Words.put64(b, ((int) l4) - 58816, 0L);
    Words.put64(b, ((int) l4) - 58808, 0L);
    Core3.f83(m, l4 + 112L, l1, l2);
    l2 = Words.get64(b, ((int) l4) - 58776);
    l1 = Words.get64(b, ((int) l4) - 58784);
    L8: {
     if ((b[((int) l4) - 58800] & 0xff) == 1) { break L8; }
     Core3.f84(m, l4 + 64L, l1, l2);
     if ((b[((int) l4) - 58848] & 0xff) != 1) { break L8; }
     f256(m, l4 + 144L, l3, Words.get64(b, ((int) l4) - 58840), Words.get64(b, ((int) l4) - 58832), Words.get64(b, ((int) l4) - 58816), Words.get64(b, ((int) l4) - 58808));
     l9 = b[((int) l4) - 58766] & 0xff;
     l8 = b[((int) l4) - 58767] & 0xff;
     l7 = b[((int) l4) - 58768] & 0xff;
     break L3;
    }
    Words.put16(b, ((int) l4) - 58708, (short) 0);
    b[((int) l4) - 58706] = (byte) 0;
    Words.put64(b, ((int) l4) - 58760, 0L);
    Words.put64(b, ((int) l4) - 58752, 0L);
    Words.put64(b, ((int) l4) - 58744, 0L);
    Words.put64(b, ((int) l4) - 58736, 0L);
    Words.put64(b, ((int) l4) - 58728, 0L);
    Words.put64(b, ((int) l4) - 58720, 0L);
    Words.put16(b, ((int) l4) - 58764, (short) 0);
    b[((int) l4) - 58762] = (byte) 0;
    Core3.f87(m, l4 + 152L, l1, l2);
    L9: {
     L10: {
      if ((b[((int) l4) - 58760] & 0xff) != 1) { break L10; }
      f256(m, l4 + 204L, l3, Words.get64(b, ((int) l4) - 58752), Words.get64(b, ((int) l4) - 58744), Words.get64(b, ((int) l4) - 58728), Words.get64(b, ((int) l4) - 58720));
      l2 = l4 + 204L;
      l9 = b[((int) l4) - 58706] & 0xff;
      l8 = b[((int) l4) - 58707] & 0xff;
      break L9;
     }
     Words.put64(b, ((int) l4) - 58680, 0L);
     Words.put64(b, ((int) l4) - 58688, 0L);
     Words.put64(b, ((int) l4) - 58696, 0L);
     Words.put64(b, ((int) l4) - 58704, 0L);
     Core3.f91(m, l4 + 208L, l1, l2);
     L11: {
      L12: {
       if ((b[((int) l4) - 58704] & 0xff) != 1) { break L12; }
       l7 = Words.get32(b, ((int) l4) - 58696);
       Core3.f86(m, l4 + 208L, l5 = Words.get64(b, ((int) l4) - 58688), l6 = Words.get64(b, ((int) l4) - 58680));
       if ((b[((int) l4) - 58704] & 0xff) != 1) { break L12; }
       L13: {
        if (l7 == 37) { break L13; }
        if (l7 == 65285) { break L13; }
        if (l7 != 8240) { break L12; }
       }
       f257(m, l4 + 148L, l3, l5, l6);
       break L11;
      }
      f257(m, l4 + 148L, l3, l1, l2);
     }
     l2 = l4 + 148L;
     l9 = b[((int) l4) - 58762] & 0xff;
     l8 = b[((int) l4) - 58763] & 0xff;
    }
    l7 = b[((int) l2) - 58912] & 0xff;
   }
   b[((int) l0) - 58912] = (byte) l7;
   b[((int) (l0 + 2L)) - 58912] = (byte) l9;
   b[((int) (l0 + 1L)) - 58912] = (byte) l8;
   break L1;
  }
  throw State.trap();
 }
 m.g0 = l4 + 240L;
}

static void f256(State m, long l0, int l1, long l2, long l3, long l4, long l5) {
 final byte[] b = m.bytes;
 long l6 = 0;
 int l7 = 0;
 int l8 = 0;
 int l9 = 0;
 m.g0 = l6 = m.g0 - 96L;
 L1: {
  if ((l6 = l6) < 16L) { break L1; }
  Words.put64(b, ((int) l6) - 58888, 0L);
  Words.put64(b, ((int) l6) - 58896, 0L);
  Words.put64(b, ((int) l6) - 58904, 0L);
  Words.put64(b, ((int) l6) - 58912, 0L);
  Core3.f89(m, l6, l1, 0L, l2, l3);
  l7 = 1;
  L2: {
   L3: {
    if ((b[((int) l6) - 58912] & 0xff) != 1) { break L3; }
    l8 = 0;
    L4: {
     L5: {
      L6: {
       L7: {
        switch ((int) (b[((int) l6) - 58904] & 0xffL)) {
        case 1: break L5;
        case 2: break L4;
        case 3: break L7;
        default: break L6;
        }
       }
       l7 = 2;
       l9 = 1;
       break L2;
      }
      l8 = 0;
      l7 = 0;
      l9 = 1;
      break L2;
     }
     Words.put64(b, ((int) l6) - 58864, 0L);
     Words.put64(b, ((int) l6) - 58856, 0L);
     Words.put64(b, ((int) l6) - 58848, 0L);
     Words.put64(b, ((int) l6) - 58840, 0L);
     Words.put64(b, ((int) l6) - 58832, 0L);
     Words.put64(b, ((int) l6) - 58824, 0L);
     Words.put16(b, ((int) l6) - 58868, (short) 0);
     b[((int) l6) - 58866] = (byte) 0;
     Core3.f90(m, l6 + 48L, l1, 0L, l2, l3);
     l7 = 1;
     L8: {
      if ((b[((int) l6) - 58864] & 0xff) == 1) { break L8; }
      l8 = 2;
      l7 = 0;
      l9 = 1;
      break L2;
     }
     L9: {
      L10: {
       L11: {
        L12: {
         switch ((int) (b[((int) l6) - 58856] & 0xffL)) {
         case 1: break L9;
         case 2: break L10;
         case 3: break L12;
         default: break L11;
         }
        }
        l7 = 2;
        l8 = 0;
        l9 = 1;
        break L2;
       }
       l7 = 0;
      }
      l8 = 0;
      l9 = 1;
      break L2;
     }
     f257(m, l6 + 44L, l1, l2, l3);
     final int t13 = b[((int) l6) - 58866] & 0xff;
     final int t14 = l1 = (((b[((int) l6) - 58868] & 0xff) & 255) == 1) ? 1 : 0;
     l7 = t14 != 0 ? t13 : 0;
     final int t15 = b[((int) l6) - 58867] & 0xff;
     final int t16 = l1;
     l8 = t16 != 0 ? t15 : 2;
    }
    l9 = 1;
    break L2;
   }
   Words.put64(b, ((int) l6) - 58864, 0L);
   Words.put64(b, ((int) l6) - 58856, 0L);
   Words.put64(b, ((int) l6) - 58848, 0L);
   Words.put64(b, ((int) l6) - 58840, 0L);
   Words.put64(b, ((int) l6) - 58832, 0L);
   Words.put64(b, ((int) l6) - 58824, 0L);
   l8 = 0;
   Words.put16(b, ((int) l6) - 58912, (short) 0);
   b[((int) l6) - 58910] = (byte) 0;
   Core3.f90(m, l6 + 48L, l1, 0L, l4, l5);
   L17: {
    if ((b[((int) l6) - 58864] & 0xff) == 1) { break L17; }
    l9 = 0;
    l7 = 0;
    break L2;
   }
   l9 = 1;
   l7 = 1;
   L18: {
    L19: {
     L20: {
      switch ((int) (b[((int) l6) - 58856] & 0xffL)) {
      case 1: break L18;
      case 2: break L2;
      case 3: break L20;
      default: break L19;
      }
     }
     l7 = 2;
     break L2;
    }
    l7 = 0;
    break L2;
   }
   f257(m, l6, l1, l4, l5);
   l7 = b[((int) l6) - 58910] & 0xff;
   l8 = b[((int) l6) - 58911] & 0xff;
   l9 = b[((int) l6) - 58912] & 0xff;
  }
  b[((int) l0) - 58912] = (byte) l9;
  b[((int) (l0 + 2L)) - 58912] = (byte) l7;
  b[((int) (l0 + 1L)) - 58912] = (byte) l8;
  m.g0 = l6 + 96L;
  return;
 }
 throw State.trap();
}

static void f257(State m, long l0, int l1, long l2, long l3) {
 final byte[] b = m.bytes;
 long l4 = 0;
 long l5 = 0;
 long l6 = 0;
 long l7 = 0;
 long l8 = 0;
 long l9 = 0;
 long l10 = 0;
 int l11 = 0;
 int l12 = 0;
 int l13 = 0;
 m.g0 = l4 = m.g0 - 256L;
 L1: {
  L2: {
   if ((l4 = l4) < 16L) { break L2; }
   Words.put64(b, ((int) l4) - 58840, 0L);
   Words.put64(b, ((int) l4) - 58848, 0L);
   Words.put64(b, ((int) l4) - 58856, 0L);
   Words.put64(b, ((int) l4) - 58864, 0L);
   Words.put64(b, ((int) l4) - 58872, 0L);
   Words.put64(b, ((int) l4) - 58880, 0L);
   Core3.f92(m, l4 + 32L, l1, 0L, l2, l3);
   l11 = 1;
   L3: {
    L4: {
     L5: {
      if ((b[((int) l4) - 58880] & 0xff) != 1) { break L5; }
      l12 = 0;
      l13 = 1;
      L6: {
       L7: {
        switch ((int) (b[((int) l4) - 58872] & 0xffL)) {
        case 1: break L4;
        case 2: break L3;
        case 3: break L7;
        default: break L6;
        }
       }
       l13 = 2;
       break L3;
      }
      l12 = 0;
      l13 = 0;
      break L3;
     }
     Words.put16(b, ((int) l0) - 58912, (short) 0);
     b[((int) (l0 + 2L)) - 58912] = (byte) 0;
     break L1;
    }
    Words.put64(b, ((int) l4) - 58744, 0L);
    Words.put64(b, ((int) l4) - 58752, 0L);
    Words.put64(b, ((int) l4) - 58760, 0L);
    Words.put64(b, ((int) l4) - 58768, 0L);
    Words.put64(b, ((int) l4) - 58776, 0L);
    Words.put64(b, ((int) l4) - 58784, 0L);
    Core3.f98(m, l4 + 128L, l2, l3);
    l5 = Words.get64(b, ((int) l4) - 58776);
    l6 = Words.get64(b, ((int) l4) - 58768);
    l11 = b[((int) l4) - 58784] & 0xff;
    Words.put64(b, ((int) l4) - 58792, 0L);
    Words.put64(b, ((int) l4) - 58800, 0L);
    Words.put64(b, ((int) l4) - 58808, 0L);
    Words.put64(b, ((int) l4) - 58816, 0L);
    Words.put64(b, ((int) l4) - 58824, 0L);
    Words.put64(b, ((int) l4) - 58832, 0L);
    Core3.f99(m, l4 + 80L, l2 = ((l11 = (l11 == 1) ? 1 : 0) != 0) ? l5 : l2, l3 = l11 != 0 ? l6 : l3);
    L8: {
     if ((b[((int) l4) - 58832] & 0xff) != 0) { break L8; }
     Words.put64(b, ((int) l4) - 58760, 0L);
     Words.put64(b, ((int) l4) - 58768, 0L);
     Words.put64(b, ((int) l4) - 58776, 0L);
     Words.put64(b, ((int) l4) - 58784, 0L);
     Core3.f100(m, l4 + 128L, l1, 0L, l2, l3);
     l12 = 0;
     l13 = 0;
     if ((l11 = b[((int) l4) - 58784] & 0xff) == 0) { break L3; }
     l13 = Core7.f230(m, l2, l3, b[((int) l4) - 58776] & 0xff, Words.get64(b, ((int) l4) - 58768)) & 255;
     break L3;
    }
    l7 = b[((int) (l4 + 127L)) - 58912] & 0xffL;
    l5 = Words.get64(b, ((int) l4) - 58800);
    l6 = Words.get64(b, ((int) l4) - 58808);
    l8 = Words.get64(b, ((int) l4) - 58816);
    l9 = Words.get64(b, ((int) l4) - 58824);
    l11 = b[((int) l4) - 58792] & 0xff;
    l10 = Words.get32(b, ((int) l4) - 58789) & 0xffffffffL;
    l12 = b[((int) l4) - 58791] & 0xff;
    l13 = b[((int) l4) - 58790] & 0xff;
    Words.put64(b, ((int) l4) - 58744, 0L);
    Words.put64(b, ((int) l4) - 58752, 0L);
    Words.put64(b, ((int) l4) - 58760, 0L);
    Words.put64(b, ((int) l4) - 58768, 0L);
    Words.put64(b, ((int) l4) - 58776, 0L);
    Words.put64(b, ((int) l4) - 58784, 0L);
    l7 = l10 | (l7 << 32L);
    L9: {
     L10: {
      L11: {
       L12: {
        if (l11 != 1) { break L12; }
        Core3.f99(m, l4 + 128L, l6, l5);
        if ((b[((int) l4) - 58784] & 0xff) == 0) { break L11; }
        Words.put64(b, ((int) l4) - 58688, 0L);
        Words.put64(b, ((int) l4) - 58680, 0L);
        Words.put64(b, ((int) l4) - 58672, 0L);
        Words.put64(b, ((int) l4) - 58664, 0L);
        Core3.f100(m, l4 + 224L, l1, 0L, l2, l3);
        l11 = 1;
        if ((b[((int) l4) - 58688] & 0xff) == 1) { break L10; }
        l12 = 1;
        break L3;
       }
       Words.put64(b, ((int) l4) - 58688, 0L);
       Words.put64(b, ((int) l4) - 58680, 0L);
       Words.put64(b, ((int) l4) - 58672, 0L);
       Words.put64(b, ((int) l4) - 58664, 0L);
       Core3.f100(m, l4 + 224L, l1, 0L, l2, l3);
       l11 = 1;
       L13: {
        if ((b[((int) l4) - 58688] & 0xff) == 1) { break L13; }
        l12 = 1;
        break L3;
       }
       Words.put32(b, ((int) l4) - 58693, (int) l7);
       b[((int) (l4 + 223L)) - 58912] = (byte) (l7 >>> 32L);
       b[((int) l4) - 58694] = (byte) l13;
       b[((int) l4) - 58695] = (byte) l12;
       b[((int) l4) - 58696] = (byte) 0;
       Words.put64(b, ((int) l4) - 58704, l5);
       Words.put64(b, ((int) l4) - 58712, l6);
       Words.put64(b, ((int) l4) - 58720, l8);
       Words.put64(b, ((int) l4) - 58728, l9);
       l5 = Words.get64(b, ((int) l4) - 58672);
       l1 = b[((int) l4) - 58680] & 0xff;
       Core3.f102(m, l4 + 16L, 0L, l4 + 184L);
       l12 = 1;
       L14: {
        if (l1 != 1) { break L14; }
        if (((b[((int) l4) - 58896] & 0xff) & 255) == 0) { break L14; }
        if (Words.get64(b, ((int) l4) - 58888) + Long.MIN_VALUE >= l5 + Long.MIN_VALUE) { break L3; }
       }
       l13 = Core7.f230(m, l2, l3, l1, l5) & 255;
       break L9;
      }
      Words.put16(b, ((int) l4) - 58732, (short) 0);
      b[((int) l4) - 58730] = (byte) 0;
      Words.put16(b, ((int) l4) - 58736, (short) 0);
      b[((int) l4) - 58734] = (byte) 0;
      Words.put64(b, ((int) l4) - 58688, 0L);
      Words.put64(b, ((int) l4) - 58680, 0L);
      Words.put64(b, ((int) l4) - 58672, 0L);
      Words.put64(b, ((int) l4) - 58664, 0L);
      f258(m, l4 + 180L, l1, l9, l8);
      l11 = 1;
      L15: {
       if ((b[((int) l4) - 58732] & 0xff) != 1) { break L15; }
       l13 = b[((int) l4) - 58730] & 0xff;
       l12 = b[((int) l4) - 58731] & 0xff;
       break L3;
      }
      f258(m, l4 + 176L, l1, l6, l5);
      L16: {
       if ((b[((int) l4) - 58736] & 0xff) != 1) { break L16; }
       l11 = 1;
       l13 = b[((int) l4) - 58734] & 0xff;
       l12 = b[((int) l4) - 58735] & 0xff;
       break L3;
      }
      Words.put64(b, ((int) l4) - 58696, (((((l12 & 0xffffffffL) & 255L) << 8L) | (((l13 & 0xffffffffL) & 255L) << 16L)) | (l7 << 24L)) | 1L);
      Words.put64(b, ((int) l4) - 58704, l5);
      Words.put64(b, ((int) l4) - 58712, l6);
      Words.put64(b, ((int) l4) - 58720, l8);
      Words.put64(b, ((int) l4) - 58728, l9);
      Core3.f101(m, l4 + 224L, l1, 0L, l12, l4 + 184L);
      l11 = 0;
      l12 = 0;
      l13 = 0;
      if ((b[((int) l4) - 58688] & 0xff) != 1) { break L3; }
      l13 = 33619968 >>> (l1 = (b[((int) l4) - 58680] & 0xff) << 3);
      l12 = 256 >>> l1;
      l11 = 1;
      break L3;
     }
     Words.put32(b, ((int) l4) - 58693, (int) l7);
     b[((int) (l4 + 223L)) - 58912] = (byte) (l7 >>> 32L);
     b[((int) l4) - 58694] = (byte) l13;
     b[((int) l4) - 58695] = (byte) l12;
     l12 = 1;
     b[((int) l4) - 58696] = (byte) 1;
     Words.put64(b, ((int) l4) - 58704, l5);
     Words.put64(b, ((int) l4) - 58712, l6);
     Words.put64(b, ((int) l4) - 58720, l8);
     Words.put64(b, ((int) l4) - 58728, l9);
     l5 = Words.get64(b, ((int) l4) - 58672);
     l1 = b[((int) l4) - 58680] & 0xff;
     Core3.f102(m, l4, 0L, l4 + 184L);
     L17: {
      if (l1 != 1) { break L17; }
      if (((b[((int) l4) - 58912] & 0xff) & 255) == 0) { break L17; }
      if (Words.get64(b, ((int) l4) - 58904) + Long.MIN_VALUE >= l5 + Long.MIN_VALUE) { break L3; }
     }
     l13 = Core7.f230(m, l2, l3, l1, l5) & 255;
    }
    l12 = 0;
   }
   b[((int) l0) - 58912] = (byte) l11;
   b[((int) (l0 + 2L)) - 58912] = (byte) l13;
   b[((int) (l0 + 1L)) - 58912] = (byte) l12;
   break L1;
  }
  throw State.trap();
 }
 m.g0 = l4 + 256L;
}

static void f258(State m, long l0, int l1, long l2, long l3) {
 final byte[] b = m.bytes;
 long l4 = 0;
 long l5 = 0;
 long l6 = 0;
 long l7 = 0;
 long l8 = 0;
 long l9 = 0;
 long l10 = 0;
 int l11 = 0;
 int l12 = 0;
 int l13 = 0;
 int l14 = 0;
 int l15 = 0;
 int l16 = 0;
 m.g0 = l4 = m.g0 - 128L;
 L1: {
  L2: {
   L3: {
    L4: {
     L5: {
      L6: {
       L7: {
        L8: {
         L9: {
          if ((l5 = l4) < 16L) { break L9; }
          l4 = 0L;
          Words.put64(b, ((int) l5) - 58848, 0L);
          Words.put64(b, ((int) l5) - 58840, 0L);
          Words.put64(b, ((int) l5) - 58832, 0L);
          Words.put64(b, ((int) l5) - 58824, 0L);
          Words.put64(b, ((int) l5) - 58880, 0L);
          Words.put64(b, ((int) l5) - 58872, 0L);
          Words.put64(b, ((int) l5) - 58864, 0L);
          Words.put64(b, ((int) l5) - 58856, 0L);
          Words.put64(b, ((int) l5) - 58912, 0L);
          Words.put64(b, ((int) l5) - 58904, 0L);
          Words.put64(b, ((int) l5) - 58896, 0L);
          Words.put64(b, ((int) l5) - 58888, 0L);
          l11 = 0;
          if (l3 == 0L) { break L3; }
          l6 = 0L;
          l7 = l3;
          l4 = l2;
          L10: while (true) {
           L11: {
            L12: {
             if ((l12 = b[((int) l4) - 58912] & 0xff) + Integer.MIN_VALUE > -2147483616) { break L12; }
             if (((1L << (l12 & 0xffffffffL)) & 4294983168L) == 0L) { break L12; }
             l8 = 1L;
             break L11;
            }
            L13: {
             L14: {
              L15: {
               if (l12 == 194) { break L15; }
               if (l7 + Long.MIN_VALUE < -9223372036854775805L) { break L14; }
               if (((l12 + 28) & 255) + Integer.MIN_VALUE < -2147483395) { break L14; }
               l13 = b[((int) (l4 + 1L)) - 58912] & 0xff;
               l15 = (int) (byte) (l14 = b[((int) (l4 + 2L)) - 58912] & 0xff);
               if (l12 != 226) { break L13; }
               if ((l13 & 255) != 128) { break L13; }
               l8 = 3L;
               if (l15 < -117) { break L11; }
               if ((l14 + -168) + Integer.MIN_VALUE < -2147483646) { break L11; }
               if (l14 != 175) { break L8; }
               break L11;
              }
              l8 = 1L;
              l12 = b[((int) l4) - 58911] & 0xff;
              L16: {
               if (l7 != 1L) { break L16; }
               l15 = l12 & 63;
               l12 = 194;
               break L6;
              }
              l8 = 2L;
              if (l12 == 133) { break L11; }
              if (l12 == 160) { break L11; }
             }
             if (l7 + Long.MIN_VALUE >= -9223372036854775805L) { break L8; }
             l13 = b[((int) l4) - 58912] & 0xff;
             break L7;
            }
            L17: {
             L18: {
              L19: {
               L20: {
                switch (l12 + -225) {
                case 1: break L19;
                case 2: break L18;
                default: break L20;
                }
               }
               if ((l13 & 255) != 154) { break L8; }
               if (l15 != -128) { break L8; }
               break L17;
              }
              if ((l13 & 255) != 129) { break L8; }
              if (l15 == -97) { break L17; }
              break L8;
             }
             if ((l13 & 255) != 128) { break L8; }
             if (l15 != -128) { break L8; }
            }
            l8 = 3L;
           }
           l6 = l6 + 1L;
           l4 = l4 + l8;
           if (!((l7 = l7 - l8) == 0L)) { continue L10; }
           break L10;
          }
          l4 = 0L;
          break L3;
         }
         throw State.trap();
        }
        if (((l13 = b[((int) l4) - 58912] & 0xff) & 240) != 224) { break L7; }
        l12 = (((b[((int) l4) - 58910] & 0xff) + ((b[((int) l4) - 58911] & 0xff) << 6)) + (l13 << 12)) + -925824;
        l8 = l7 + -3L;
        l4 = l4 + 3L;
        break L4;
       }
       l12 = l13 & 255;
       l9 = 1L;
       L21: {
        if (((int) (byte) l13) > -1) { break L21; }
        l15 = (b[((int) l4) - 58911] & 0xff) & 63;
        L22: {
         if ((l13 & 255) + Integer.MIN_VALUE > -2147483425) { break L22; }
         l8 = l7;
         break L6;
        }
        l14 = (b[((int) l4) - 58910] & 0xff) & 63;
        L23: {
         if ((l13 & 255) + Integer.MIN_VALUE > -2147483409) { break L23; }
         l12 = ((l15 << 6) | ((l12 << 12) & 61440)) | l14;
         l9 = 3L;
         break L21;
        }
        l12 = ((l14 << 6) | ((l15 << 12) | ((l12 << 18) & 1835008))) | ((b[((int) l4) - 58909] & 0xff) & 63);
        l9 = 4L;
       }
       l8 = l7;
       break L5;
      }
      l12 = ((l12 << 6) & 1984) | l15;
      l9 = 2L;
     }
     l8 = l8 - l9;
     l4 = l4 + l9;
    }
    Words.put64(b, ((int) l5) - 58792, 0L);
    Words.put64(b, ((int) l5) - 58800, 0L);
    Words.put64(b, ((int) l5) - 58808, 0L);
    Words.put64(b, ((int) l5) - 58816, 0L);
    L24: {
     L25: {
      L26: {
       L27: {
        L28: {
         L29: {
          L30: {
           if (l8 + Long.MIN_VALUE < -9223372036854775804L) { break L30; }
           if (Words.get32(b, ((int) ((l10 = ((((l13 = Words.get32(b, ((int) ((l4 + l8) + -4L)) - 58912) >>> 8) & 0xffffffffL) * 953497L) >>> 22L) & 1016L) + 66852L)) - 58912) != l13) { break L28; }
           l7 = l8 + -3L;
           l9 = l4;
           break L29;
          }
          if (l8 != 3L) { break L28; }
          if (Words.get32(b, ((int) ((l10 = ((((l13 = (Words.get16(b, ((int) l4) - 58912) & 0xffff) | ((b[((int) l4) - 58910] & 0xff) << 16)) & 0xffffffffL) * 953497L) >>> 22L) & 1016L) + 66852L)) - 58912) != l13) { break L28; }
          l9 = l4 + 3L;
          l7 = 0L;
         }
         l14 = b[((int) (l10 + 66856L)) - 58912] & 0xff;
         l11 = b[((int) (l10 + 66857L)) - 58912] & 0xff;
         break L27;
        }
        Core2.f41(m, l5 + 96L, l4, l8);
        if ((b[((int) l5) - 58816] & 0xff) != 1) { break L26; }
        l7 = Words.get64(b, ((int) l5) - 58792);
        l9 = Words.get64(b, ((int) l5) - 58800);
        l11 = b[((int) l5) - 58807] & 0xff;
        l14 = b[((int) l5) - 58808] & 0xff;
       }
       Words.put64(b, ((int) l5) - 58792, 0L);
       Words.put64(b, ((int) l5) - 58800, 0L);
       Words.put64(b, ((int) l5) - 58808, 0L);
       Words.put64(b, ((int) l5) - 58816, 0L);
       L31: {
        L32: {
         L33: {
          if (l7 + Long.MIN_VALUE < -9223372036854775804L) { break L33; }
          if (Words.get32(b, ((int) ((l10 = ((((l13 = Words.get32(b, ((int) ((l9 + l7) + -4L)) - 58912) >>> 8) & 0xffffffffL) * 953497L) >>> 22L) & 1016L) + 66852L)) - 58912) != l13) { break L32; }
          l15 = b[((int) (l10 + 66856L)) - 58912] & 0xff;
          l16 = b[((int) (l10 + 66857L)) - 58912] & 0xff;
          l13 = 1;
          break L31;
         }
         if (l7 != 3L) { break L32; }
         if (Words.get32(b, ((int) ((l10 = ((((l13 = (Words.get16(b, ((int) l9) - 58912) & 0xffff) | ((b[((int) l9) - 58910] & 0xff) << 16)) & 0xffffffffL) * 953497L) >>> 22L) & 1016L) + 66852L)) - 58912) != l13) { break L32; }
         l15 = b[((int) (l10 + 66856L)) - 58912] & 0xff;
         l16 = b[((int) (l10 + 66857L)) - 58912] & 0xff;
         l13 = 1;
         break L31;
        }
        Core2.f41(m, l5 + 96L, l9, l7);
        l13 = ((b[((int) l5) - 58816] & 0xff) == 1) ? 1 : 0;
        l16 = b[((int) l5) - 58807] & 0xff;
        l15 = b[((int) l5) - 58808] & 0xff;
       }
       if (l13 == 0) { break L26; }
       if ((l15 & 255) != 1) { break L26; }
       if (((((l14 & 255) != 1) | ((l11 & 255) == 0)) ? 1 : 0) != 1) { break L26; }
       if ((l16 & 255) + Integer.MIN_VALUE < -2147483646) { break L26; }
       Core2.f42(m, l5 + 32L, l1, l6, l12, l9, l7);
       l4 = Words.get64(b, ((int) l5) - 58864);
       if ((b[((int) l5) - 58880] & 0xff) != 0) { break L24; }
       L34: {
        if ((l14 & 255) != 0) { break L34; }
        Core2.f43(m, l5, l1, l4, Words.get64(b, ((int) l5) - 58856), l16, l11);
        final long t35 = Words.get64(b, ((int) l5) - 58896);
        final int t36 = l12 = ((b[((int) l5) - 58912] & 0xff) != 1) ? 1 : 0;
        l4 = t36 != 0 ? 0L : t35;
        l11 = l12 != 0 ? 2 : 0;
        break L25;
       }
       l4 = (Core2.f44(m, l9, l7) + l6) + 1L;
       l11 = 1;
       break L3;
      }
      Core2.f42(m, l5 + 64L, l1, l6, l12, l4, l8);
      l12 = b[((int) l5) - 58848] & 0xff;
      l4 = Words.get64(b, ((int) l5) - 58832);
      l11 = b[((int) l5) - 58840] & 0xff;
     }
     if ((l12 & 255) != 0) { break L2; }
     l12 = 0;
     l13 = 0;
     break L1;
    }
    l11 = b[((int) l5) - 58872] & 0xff;
   }
   l12 = 1;
  }
  l13 = Core7.f230(m, l2, l3, l11, l4) & 255;
 }
 b[((int) l0) - 58912] = (byte) l12;
 b[((int) (l0 + 2L)) - 58912] = (byte) l13;
 b[((int) (l0 + 1L)) - 58912] = (byte) 0;
 m.g0 = l5 + 128L;
}

static int f259(State m, long l0, long l1, long l2) {
 final byte[] b = m.bytes;
 long l3 = 0;
 long l4 = 0;
 long l5 = 0;
 int l6 = 0;
 int l7 = 0;
 int l8 = 0;
 int l9 = 0;
 int l10 = 0;
 m.g0 = l3 = m.g0 - 16L;
 L1: {
  if ((l4 = l3) < 16L) { break L1; }
  l3 = 0L;
  L2: {
   if (l2 + Long.MIN_VALUE < -9223372036854775792L) { break L2; }
   Core1.f25(m, l4, l0, l1, l2);
   l2 = Words.get64(b, ((int) l4) - 58904);
   l3 = Words.get64(b, ((int) l4) - 58912);
  }
  L3: {
   if (l2 + Long.MIN_VALUE < -9223372036854775805L) { break L3; }
   L4: while (true) {
    if ((l1 - l3) + Long.MIN_VALUE < -9223372036854775800L) { break L3; }
    L5: {
     L6: {
      if (((l5 = Words.get64(b, ((int) (l0 + l3)) - 58912)) & 67553998437089520L) != 63050398541283552L) { break L6; }
      l2 = l2 + -3L;
      l3 = l3 + 9L;
      break L5;
     }
     if (l2 + Long.MIN_VALUE < -9223372036854775800L) { break L3; }
     if ((l5 & -9187201950435737472L) != 0L) { break L3; }
     l2 = l2 + -8L;
     l3 = l3 + 8L;
    }
    if (l2 + Long.MIN_VALUE > -9223372036854775806L) { continue L4; }
    break L4;
   }
  }
  L7: {
   if (l2 == 0L) { break L7; }
   if (l1 + Long.MIN_VALUE <= l3 + Long.MIN_VALUE) { break L7; }
   l2 = l2 + -1L;
   L8: while (true) {
    l3 = Words.get64(b, ((int) (((((b[((int) (l0 + l3)) - 58912] & 0xff) >>> 1) & 0xffffffffL) & 120L) + 66680L)) - 58912) + l3;
    if (l2 == 0L) { break L7; }
    l2 = l2 + -1L;
    if (l1 + Long.MIN_VALUE > l3 + Long.MIN_VALUE) { continue L8; }
    break L8;
   }
  }
  l2 = 83372L;
  l5 = 0L;
  L9: {
   if (l1 + Long.MIN_VALUE < l3 + Long.MIN_VALUE) { break L9; }
   L10: {
    if (l1 == 0L) { break L10; }
    if (((int) b[((int) l0) - 58912]) < -64) { break L9; }
   }
   L11: {
    if (l3 == l1) { break L11; }
    if (((int) b[((int) (l0 + l3)) - 58912]) < -64) { break L9; }
   }
   l5 = l3;
   l2 = l0;
  }
  L12: {
   L13: while (true) {
    if ((l6 = (l5 == 0L) ? 1 : 0) != 0) { break L12; }
    l8 = (l7 = (int) b[((int) l2) - 58912]) & 255;
    l3 = 1L;
    L14: {
     if (l7 > -1) { break L14; }
     l9 = (b[((int) l2) - 58911] & 0xff) & 63;
     L15: {
      if (l7 + Integer.MIN_VALUE > 2147483615) { break L15; }
      l8 = ((l8 << 6) & 1984) | l9;
      l3 = 2L;
      break L14;
     }
     l10 = (b[((int) l2) - 58910] & 0xff) & 63;
     L16: {
      if (l7 + Integer.MIN_VALUE > 2147483631) { break L16; }
      l8 = ((l9 << 6) | ((l8 << 12) & 61440)) | l10;
      l3 = 3L;
      break L14;
     }
     l8 = ((l10 << 6) | ((l9 << 12) | ((l8 << 18) & 1835008))) | ((b[((int) l2) - 58909] & 0xff) & 63);
     l3 = 4L;
    }
    l5 = l5 - l3;
    l2 = l2 + l3;
    L17: {
     if (l8 > 40669) { break L17; }
     if (l8 == 46) { break L12; }
     if (l8 != 28857) { continue L13; }
     break L12;
    }
    if (l8 == 65294) { break L12; }
    if (l8 != 40670) { continue L13; }
    break L13;
   }
  }
  m.g0 = l4 + 16L;
  final int t18 = l6;
  return t18;
 }
 throw State.trap();
}

static void f260(State m, long l0, int l1, int l2, long l3, long l4, long l5, long l6) {
 final byte[] b = m.bytes;
 long l7 = 0;
 long l8 = 0;
 long l9 = 0;
 long l10 = 0;
 int l11 = 0;
 m.g0 = l7 = m.g0 - 176L;
 L1: {
  L2: {
   L3: {
    if ((l7 = l7) < 16L) { break L3; }
    L4: {
     L5: {
      if (!(l6 == 0L)) { break L5; }
      l6 = 0L;
      l3 = 0L;
      l4 = 0L;
      l5 = 0L;
      l8 = 0L;
      l9 = 0L;
      break L4;
     }
     L6: while (true) {
      L7: {
       L8: {
        if ((l11 = (int) b[((int) l5) - 58912]) <= -1) { break L8; }
        l10 = 1L;
        break L7;
       }
       L9: {
        if (l11 + Integer.MIN_VALUE >= 2147483616) { break L9; }
        l10 = 2L;
        break L7;
       }
       l10 = (l11 + Integer.MIN_VALUE < 2147483632) ? 3L : 4L;
      }
      Words.put64(b, ((int) l7) - 58776, 0L);
      Words.put64(b, ((int) l7) - 58768, 0L);
      Words.put64(b, ((int) l7) - 58760, 0L);
      Words.put64(b, ((int) l7) - 58752, 0L);
      Words.put64(b, ((int) l7) - 58744, 0L);
      m.fill((int) (l7 + 8L), 0, (int) 128L);
      f261(m, l7 + 136L, l3, l4, l5, l6, l1, l2);
      L10: {
       if ((b[((int) l7) - 58776] & 0xff) != 1) { break L10; }
       final long t11 = l9 = Words.get64(b, ((int) l7) - 58752);
       final long t12 = Words.get64(b, ((int) l7) - 58744);
       final int t13 = l2 = b[((int) l7) - 58768] & 0xff;
       l10 = t13 != 0 ? t11 : t12;
       final long t14 = Words.get64(b, ((int) l7) - 58760);
       final long t15 = l9;
       final int t16 = l2;
       l9 = t16 != 0 ? t14 : t15;
       break L2;
      }
      Core4.f119(m, l7 + 8L, l3, l4, l5, l6, l1, l2);
      L17: {
       if ((b[((int) l7) - 58904] & 0xff) != 1) { break L17; }
       l10 = Words.get64(b, ((int) l7) - 58792);
       l9 = Words.get64(b, ((int) l7) - 58800);
       l8 = Words.get64(b, ((int) l7) - 58880);
       L18: {
        L19: {
         L20: {
          switch ((int) (b[((int) l7) - 58896] & 0xffL)) {
          case 1: break L19;
          case 2: break L2;
          case 3: break L18;
          default: break L20;
          }
         }
         l10 = Words.get64(b, ((int) l7) - 58872);
         l9 = l8;
         break L2;
        }
        l9 = l10;
        l10 = Words.get64(b, ((int) l7) - 58784);
        break L2;
       }
       l9 = Words.get64(b, ((int) l7) - 58888);
       l10 = l8;
       break L2;
      }
      l5 = l5 + l10;
      if (!((l6 = l6 - l10) == 0L)) { continue L6; }
      break L6;
     }
     l9 = 0L;
     l6 = 0L;
     l3 = 0L;
     l4 = 0L;
     l5 = 0L;
     l8 = 0L;
    }
    l10 = 0L;
    break L1;
   }
   throw State.trap();
  }
  l8 = l6 - l10;
  l4 = l4 - l6;
  l6 = 1L;
 }
 Words.put64(b, ((int) l0) - 58912, l6);
 Words.put64(b, ((int) (l0 + 48L)) - 58912, l10);
 Words.put64(b, ((int) (l0 + 40L)) - 58912, l9);
 Words.put64(b, ((int) (l0 + 32L)) - 58912, l8);
 Words.put64(b, ((int) (l0 + 24L)) - 58912, l5);
 Words.put64(b, ((int) (l0 + 16L)) - 58912, l4);
 Words.put64(b, ((int) (l0 + 8L)) - 58912, l3);
 m.g0 = l7 + 176L;
}

static int f261_1(State m, long l1, long l2, long l3, long l4, long l7, long l8, long l9, long l10, long l11, long l12, long l13, long l14, long l15, int l16, int l17, int l18, int l19, int l20) {
 final byte[] b = m.bytes;
 int exit = 0;
 PART: {
  L4: {
   L5: {
    if ((l8 = l7) < 16L) { break L5; }
    l16 = 0;
    m.fill((int) (l8 + 24L), 0, (int) 128L);
    Words.put64(b, ((int) l8) - 58736, 0L);
    Words.put64(b, ((int) l8) - 58744, 0L);
    Words.put64(b, ((int) l8) - 58752, 0L);
    Words.put64(b, ((int) l8) - 58760, 0L);
    Core6.f202(m, l8 + 152L, l1, l9 = l2 - l4, l3, l4);
    l7 = l3;
    l10 = l4;
    L6: {
     L7: {
      if ((b[((int) l8) - 58760] & 0xff) != 1) { break L7; }
      l7 = Words.get64(b, ((int) l8) - 58736);
      l11 = Words.get64(b, ((int) l8) - 58744);
      l10 = Words.get64(b, ((int) l8) - 58752);
      break L6;
     }
     L8: {
      L9: while (true) {
       l12 = l7;
       if ((l17 = ((l13 = l10) == 0L) ? 1 : 0) != 0) { break L8; }
       l18 = (l16 = (int) b[((int) l12) - 58912]) & 255;
       l11 = 1L;
       L10: {
        if (l16 > -1) { break L10; }
        l19 = (b[((int) l12) - 58911] & 0xff) & 63;
        L11: {
         if (l16 + Integer.MIN_VALUE > 2147483615) { break L11; }
         l18 = ((l18 << 6) & 1984) | l19;
         l11 = 2L;
         break L10;
        }
        l20 = (b[((int) l12) - 58910] & 0xff) & 63;
        L12: {
         if (l16 + Integer.MIN_VALUE > 2147483631) { break L12; }
         l18 = ((l19 << 6) | ((l18 << 12) & 61440)) | l20;
         l11 = 3L;
         break L10;
        }
        l18 = ((l20 << 6) | ((l19 << 12) | ((l18 << 18) & 1835008))) | ((b[((int) l12) - 58909] & 0xff) & 63);
        l11 = 4L;
       }
       l7 = -32L;
       L13: {
        L14: while (true) {
         if ((l19 = (Words.get32(b, ((int) (l7 + 98200L)) - 58912) == l18) ? 1 : 0) != 0) { break L13; }
         l16 = (l7 != 0L) ? 1 : 0;
         l7 = l7 + 4L;
         if (l16 != 0) { continue L14; }
         break L14;
        }
       }
       l10 = l13 - l11;
       l7 = l12 + l11;
       if (l19 != 0) { continue L9; }
       break L9;
      }
     }
     l11 = l3;
     l7 = l4;
     L15: {
      L16: while (true) {
       if ((l14 = l7) == 0L) { break L15; }
       l18 = (l16 = (int) b[((int) l11) - 58912]) & 255;
       l10 = 1L;
       L17: {
        if (l16 > -1) { break L17; }
        l19 = (b[((int) l11) - 58911] & 0xff) & 63;
        L18: {
         if (l16 + Integer.MIN_VALUE > 2147483615) { break L18; }
         l18 = ((l18 << 6) & 1984) | l19;
         l10 = 2L;
         break L17;
        }
        l20 = (b[((int) l11) - 58910] & 0xff) & 63;
        L19: {
         if (l16 + Integer.MIN_VALUE > 2147483631) { break L19; }
         l18 = ((l19 << 6) | ((l18 << 12) & 61440)) | l20;
         l10 = 3L;
         break L17;
        }
        l18 = ((l20 << 6) | ((l19 << 12) | ((l18 << 18) & 1835008))) | ((b[((int) l11) - 58909] & 0xff) & 63);
        l10 = 4L;
       }
       l7 = -32L;
       L20: {
        L21: while (true) {
         if ((l19 = (Words.get32(b, ((int) (l7 + 98200L)) - 58912) == l18) ? 1 : 0) != 0) { break L20; }
         l16 = (l7 != 0L) ? 1 : 0;
         l7 = l7 + 4L;
         if (l16 != 0) { continue L21; }
         break L21;
        }
       }
       l7 = l14 - l10;
       l11 = l11 + l10;
       if (l19 != 0) { continue L16; }
       break L16;
      }
     }
     L22: {
      L23: {
       if (l4 == l14) { break L23; }
       L24: {
        L25: {
         if ((l16 = (int) b[((int) l3) - 58912]) <= -1) { break L25; }
         l7 = 1L;
         break L24;
        }
        L26: {
         if (l16 + Integer.MIN_VALUE >= 2147483616) { break L26; }
         l7 = 2L;
         break L24;
        }
        l7 = (l16 + Integer.MIN_VALUE < 2147483632) ? 3L : 4L;
       }
       if (l17 != 0) { break L4; }
       if (l4 == (l7 + l14)) { break L22; }
       break L4;
      }
      if (l17 != 0) { break L4; }
     }
     if ((l16 = (int) b[((int) l12) - 58912]) > -1) { break L4; }
     if (l16 + Integer.MIN_VALUE < 2147483616) { break L4; }
     l18 = l16 & 255;
     l19 = (b[((int) l12) - 58911] & 0xff) & 63;
     l17 = (b[((int) l12) - 58910] & 0xff) & 63;
     L27: {
      L28: {
       if (l16 + Integer.MIN_VALUE > 2147483631) { break L28; }
       l18 = ((l19 << 6) | ((l18 << 12) & 61440)) | l17;
       break L27;
      }
      l18 = ((l17 << 6) | ((l19 << 12) | ((l18 << 18) & 1835008))) | ((b[((int) l12) - 58909] & 0xff) & 63);
     }
     if (l18 != 21313) { break L4; }
     l12 = l15 = l12 + (l7 = (l16 + Integer.MIN_VALUE < 2147483632) ? 3L : 4L);
     l7 = l14 = l13 - l7;
     L29: {
      L30: while (true) {
       if ((l10 = l7) == 0L) { break L29; }
       l18 = (l16 = (int) b[((int) l12) - 58912]) & 255;
       l11 = 1L;
       L31: {
        if (l16 > -1) { break L31; }
        l19 = (b[((int) l12) - 58911] & 0xff) & 63;
        L32: {
         if (l16 + Integer.MIN_VALUE > 2147483615) { break L32; }
         l18 = ((l18 << 6) & 1984) | l19;
         l11 = 2L;
         break L31;
        }
        l17 = (b[((int) l12) - 58910] & 0xff) & 63;
        L33: {
         if (l16 + Integer.MIN_VALUE > 2147483631) { break L33; }
         l18 = ((l19 << 6) | ((l18 << 12) & 61440)) | l17;
         l11 = 3L;
         break L31;
        }
        l18 = ((l17 << 6) | ((l19 << 12) | ((l18 << 18) & 1835008))) | ((b[((int) l12) - 58909] & 0xff) & 63);
        l11 = 4L;
       }
       l7 = -32L;
       L34: {
        L35: while (true) {
         if ((l19 = (Words.get32(b, ((int) (l7 + 98200L)) - 58912) == l18) ? 1 : 0) != 0) { break L34; }
         l16 = (l7 != 0L) ? 1 : 0;
         l7 = l7 + 4L;
         if (l16 != 0) { continue L35; }
         break L35;
        }
       }
       l7 = l10 - l11;
       l12 = l12 + l11;
       if (l19 != 0) { continue L30; }
       break L30;
      }
     }
     L36: {
      if (l14 == l10) { break L36; }
      L37: {
       L38: {
        if ((l16 = (int) b[((int) l15) - 58912]) <= -1) { break L38; }
        l7 = 1L;
        break L37;
       }
       L39: {
        if (l16 + Integer.MIN_VALUE >= 2147483616) { break L39; }
        l7 = 2L;
        break L37;
       }
       l7 = (l16 + Integer.MIN_VALUE < 2147483632) ? 3L : 4L;
      }
      if (l14 != (l7 + l10)) { break L4; }
     }
     L40: {
      if (l2 == l4) { break L40; }
      L41: {
       if ((l18 = (int) b[((int) ((l7 = l1 + l9) + -1L)) - 58912]) >= 0) { break L41; }
       l12 = -2L;
       L42: {
        if ((b[((int) (l7 + -2L)) - 58912] & 0xff) + Integer.MIN_VALUE > -2147483457) { break L42; }
        l12 = ((b[((int) (l7 + -3L)) - 58912] & 0xff) + Integer.MIN_VALUE > -2147483457) ? -3L : -4L;
       }
       l18 = (l16 = (int) b[((int) (l7 = (l1 + l12) + l9)) - 58912]) & 255;
       if (l16 > -1) { break L41; }
       l19 = (b[((int) l7) - 58911] & 0xff) & 63;
       L43: {
        if (l16 + Integer.MIN_VALUE > 2147483615) { break L43; }
        l18 = ((l18 << 6) & 1984) | l19;
        break L41;
       }
       l17 = (b[((int) l7) - 58910] & 0xff) & 63;
       L44: {
        if (l16 + Integer.MIN_VALUE > 2147483631) { break L44; }
        l18 = ((l19 << 6) | ((l18 << 12) & 61440)) | l17;
        break L41;
       }
       l18 = ((l17 << 6) | ((l19 << 12) | ((l18 << 18) & 1835008))) | ((b[((int) l7) - 58909] & 0xff) & 63);
      }
      l7 = -44L;
      L45: {
       L46: while (true) {
        if ((l19 = (Words.get32(b, ((int) (l7 + 87508L)) - 58912) == l18) ? 1 : 0) != 0) { break L45; }
        l16 = (l7 != 0L) ? 1 : 0;
        l7 = l7 + 4L;
        if (l16 != 0) { continue L46; }
        break L46;
       }
      }
      if (l19 != 0) { break L4; }
     }
     if (Core7.f209(m, l1, l9) != 0) { break L4; }
     l7 = l3;
     l10 = l4;
     L47: {
      L48: while (true) {
       l12 = l7;
       L49: {
        if (!((l14 = l10) == 0L)) { break L49; }
        l7 = 0L;
        break L47;
       }
       l18 = (l17 = (int) b[((int) l12) - 58912]) & 255;
       l11 = 1L;
       L50: {
        if (l17 > -1) { break L50; }
        l16 = (b[((int) l12) - 58911] & 0xff) & 63;
        L51: {
         if (l17 + Integer.MIN_VALUE > 2147483615) { break L51; }
         l18 = ((l18 << 6) & 1984) | l16;
         l11 = 2L;
         break L50;
        }
        l19 = (b[((int) l12) - 58910] & 0xff) & 63;
        L52: {
         if (l17 + Integer.MIN_VALUE > 2147483631) { break L52; }
         l18 = ((l16 << 6) | ((l18 << 12) & 61440)) | l19;
         l11 = 3L;
         break L50;
        }
        l18 = ((l19 << 6) | ((l16 << 12) | ((l18 << 18) & 1835008))) | ((b[((int) l12) - 58909] & 0xff) & 63);
        l11 = 4L;
       }
       l7 = -32L;
       L53: {
        L54: while (true) {
         if ((l19 = (Words.get32(b, ((int) (l7 + 98200L)) - 58912) == l18) ? 1 : 0) != 0) { break L53; }
         l16 = (l7 != 0L) ? 1 : 0;
         l7 = l7 + 4L;
         if (l16 != 0) { continue L54; }
         break L54;
        }
       }
       l10 = l14 - l11;
       l7 = l12 + l11;
       if (l19 != 0) { continue L48; }
       break L48;
      }
      L55: {
       L56: {
        if (l17 <= -1) { break L56; }
        l11 = 1L;
        break L55;
       }
       L57: {
        if (l17 + Integer.MIN_VALUE >= 2147483616) { break L57; }
        l11 = 2L;
        break L55;
       }
       l11 = (l17 + Integer.MIN_VALUE < 2147483632) ? 3L : 4L;
      }
      l7 = l14 - l11;
      l12 = l12 + l11;
     }
     L58: {
      L59: while (true) {
       l11 = l12;
       if ((l10 = l7) == 0L) { break L58; }
       l18 = (l16 = (int) b[((int) l11) - 58912]) & 255;
       l12 = 1L;
       L60: {
        if (l16 > -1) { break L60; }
        l19 = (b[((int) l11) - 58911] & 0xff) & 63;
        L61: {
         if (l16 + Integer.MIN_VALUE > 2147483615) { break L61; }
         l18 = ((l18 << 6) & 1984) | l19;
         l12 = 2L;
         break L60;
        }
        l17 = (b[((int) l11) - 58910] & 0xff) & 63;
        L62: {
         if (l16 + Integer.MIN_VALUE > 2147483631) { break L62; }
         l18 = ((l19 << 6) | ((l18 << 12) & 61440)) | l17;
         l12 = 3L;
         break L60;
        }
        l18 = ((l17 << 6) | ((l19 << 12) | ((l18 << 18) & 1835008))) | ((b[((int) l11) - 58909] & 0xff) & 63);
        l12 = 4L;
       }
       l7 = -32L;
       L63: {
        L64: while (true) {
         if ((l19 = (Words.get32(b, ((int) (l7 + 98200L)) - 58912) == l18) ? 1 : 0) != 0) { break L63; }
         l16 = (l7 != 0L) ? 1 : 0;
         l7 = l7 + 4L;
         if (l16 != 0) { continue L64; }
         break L64;
        }
       }
       l7 = l10 - l12;
       l12 = l11 + l12;
       if (l19 != 0) { continue L59; }
       break L59;
      }
     }
     Words.put64(b, ((int) l8) - 58688, 0L);
     Words.put64(b, ((int) l8) - 58696, 0L);
     Words.put64(b, ((int) l8) - 58704, 0L);
     Words.put64(b, ((int) l8) - 58712, 0L);
     Words.put64(b, ((int) l8) - 58720, 0L);
     Words.put64(b, ((int) l8) - 58728, 0L);
     f262(m, l8 + 184L, l11, l10);
     if ((b[((int) l8) - 58728] & 0xff) != 1) { break L4; }
     f262(m, l8 + 184L, Words.get64(b, ((int) l8) - 58696), Words.get64(b, ((int) l8) - 58688));
     if ((b[((int) l8) - 58728] & 0xff) != 1) { break L4; }
     l16 = b[((int) l8) - 58704] & 0xff;
     l18 = Words.get32(b, ((int) l8) - 58700);
     l11 = Words.get64(b, ((int) l8) - 58696);
     Words.put64(b, ((int) l8) - 58648, l7 = Words.get64(b, ((int) l8) - 58688));
     Words.put64(b, ((int) l8) - 58656, l11);
     Words.put32(b, ((int) l8) - 58660, l18);
     Words.put32(b, ((int) l8) - 58664, l16);
     Words.put64(b, ((int) l8) - 58672, Words.get64(b, ((int) (l12 = l8 + 192L)) - 58904));
     Words.put64(b, ((int) l8) - 58680, Words.get64(b, ((int) l12) - 58912));
     l10 = 1L;
     if (Core7.f210(m, l8 + 232L, 1L, l11, l7) == 0) { break L4; }
     l16 = 0;
    }
    l12 = l7;
    l18 = 0;
    exit = 1; break PART;
   }
   throw State.trap();
  }
 }
 m.kept[0] = l7;
 m.kept[1] = l8;
 m.kept[2] = l9;
 m.kept[3] = l10;
 m.kept[4] = l11;
 m.kept[5] = l12;
 m.kept[6] = l13;
 m.kept[7] = l14;
 m.kept[8] = l15;
 m.kept[9] = l16;
 m.kept[10] = l17;
 m.kept[11] = l18;
 m.kept[12] = l19;
 m.kept[13] = l20;
 return exit;
}

static void f261(State m, long l0, long l1, long l2, long l3, long l4, int l5, int l6) {
 final byte[] b = m.bytes;
 long l7 = 0;
 long l8 = 0;
 long l9 = 0;
 long l10 = 0;
 long l11 = 0;
 long l12 = 0;
 long l13 = 0;
 long l14 = 0;
 long l15 = 0;
 int l16 = 0;
 int l17 = 0;
 int l18 = 0;
 int l19 = 0;
 int l20 = 0;
 int l21 = 0;
 int l22 = 0;
 int l23 = 0;
 m.g0 = l7 = m.g0 - 272L;
 L1: {
  L2: {
   L3: {
    final int x65 = f261_1(m, l1, l2, l3, l4, l7, l8, l9, l10, l11, l12, l13, l14, l15, l16, l17, l18, l19, l20);
    l7 = m.kept[0];
    l8 = m.kept[1];
    l9 = m.kept[2];
    l10 = m.kept[3];
    l11 = m.kept[4];
    l12 = m.kept[5];
    l13 = m.kept[6];
    l14 = m.kept[7];
    l15 = m.kept[8];
    l16 = (int) m.kept[9];
    l17 = (int) m.kept[10];
    l18 = (int) m.kept[11];
    l19 = (int) m.kept[12];
    l20 = (int) m.kept[13];
    switch (x65) {
    case 1: break L3;
    }
    if (l4 == 0L) { break L2; }
    l16 = (l18 = (int) b[((int) l3) - 58912]) & 255;
    l7 = 1L;
    L66: {
     if (l18 > -1) { break L66; }
     l19 = (b[((int) l3) - 58911] & 0xff) & 63;
     L67: {
      if (l18 + Integer.MIN_VALUE > 2147483615) { break L67; }
      l16 = ((l16 << 6) & 1984) | l19;
      l7 = 2L;
      break L66;
     }
     l17 = (b[((int) l3) - 58910] & 0xff) & 63;
     L68: {
      if (l18 + Integer.MIN_VALUE > 2147483631) { break L68; }
      l16 = ((l19 << 6) | ((l16 << 12) & 61440)) | l17;
      l7 = 3L;
      break L66;
     }
     l16 = ((l17 << 6) | ((l19 << 12) | ((l16 << 18) & 1835008))) | ((b[((int) l3) - 58909] & 0xff) & 63);
     l7 = 4L;
    }
    L69: {
     L70: {
      L71: {
       if (l16 > 20107) { break L71; }
       if ((l18 = l16 + -19968) + Integer.MIN_VALUE > -2147483612) { break L70; }
       if (((1L << (l18 & 0xffffffffL)) & 68719477257L) == 0L) { break L70; }
       break L69;
      }
      L72: {
       if (l16 > 21312) { break L72; }
       L73: {
        switch (l16 + -20108) {
        case 0: case 8: break L69;
        case 1: case 2: case 3: case 4: case 5: case 6: case 7: break L2;
        default: break L73;
        }
       }
       switch (l16 + -20843) {
       case 0: case 2: break L69;
       default: break L2;
       }
      }
      if (l16 == 21313) { break L69; }
      if (l16 == 38646) { break L69; }
      if (l16 != 22235) { break L2; }
      break L69;
     }
     if (l16 != 20061) { break L2; }
    }
    L74: {
     if ((l18 = (l2 == l4) ? 1 : 0) != 0) { break L74; }
     L75: {
      if ((l19 = (int) b[((int) ((l12 = l1 + l9) + -1L)) - 58912]) > -1) { break L75; }
      l11 = -2L;
      L76: {
       if ((l20 = b[((int) (l12 + -2L)) - 58912] & 0xff) + Integer.MIN_VALUE > -2147483457) { break L76; }
       l11 = ((b[((int) (l12 + -3L)) - 58912] & 0xff) + Integer.MIN_VALUE > -2147483457) ? -3L : -4L;
      }
      l19 = (l17 = (int) b[((int) (l11 = (l1 + l11) + l9)) - 58912]) & 255;
      L77: {
       if (l17 > -1) { break L77; }
       l21 = (b[((int) l11) - 58911] & 0xff) & 63;
       L78: {
        if (l17 + Integer.MIN_VALUE > 2147483615) { break L78; }
        l19 = ((l19 << 6) & 1984) | l21;
        break L77;
       }
       l22 = (b[((int) l11) - 58910] & 0xff) & 63;
       L79: {
        if (l17 + Integer.MIN_VALUE > 2147483631) { break L79; }
        l19 = ((l21 << 6) | ((l19 << 12) & 61440)) | l22;
        break L77;
       }
       l19 = ((l22 << 6) | ((l21 << 12) | ((l19 << 18) & 1835008))) | ((b[((int) l11) - 58909] & 0xff) & 63);
      }
      if (((l19 & 2097119) + -91) + Integer.MIN_VALUE >= 2147483622) { break L2; }
      l11 = -2L;
      L80: {
       if (l20 + Integer.MIN_VALUE > -2147483457) { break L80; }
       l11 = ((b[((int) (l12 + -3L)) - 58912] & 0xff) + Integer.MIN_VALUE > -2147483457) ? -3L : -4L;
      }
      if ((l19 = (int) b[((int) (l12 = (l1 + l11) + l9)) - 58912]) > -1) { break L74; }
      if (l19 + Integer.MIN_VALUE < 2147483616) { break L74; }
      l17 = l19 & 255;
      l20 = (b[((int) l12) - 58911] & 0xff) & 63;
      l21 = (b[((int) l12) - 58910] & 0xff) & 63;
      L81: {
       L82: {
        if (l19 + Integer.MIN_VALUE > 2147483631) { break L82; }
        l19 = ((l20 << 6) | ((l17 << 12) & 61440)) | l21;
        break L81;
       }
       l19 = ((l21 << 6) | ((l20 << 12) | ((l17 << 18) & 1835008))) | ((b[((int) l12) - 58909] & 0xff) & 63);
      }
      L83: {
       if (l19 > 31531) { break L83; }
       if (l19 == 20960) { break L2; }
       if (l19 == 24190) { break L2; }
       if (l19 == 27599) { break L2; }
       break L74;
      }
      L84: {
       if (l19 > 36888) { break L84; }
       if (l19 == 31532) { break L2; }
       if (l19 == 36825) { break L2; }
       break L74;
      }
      if (l19 == 36889) { break L2; }
      if (l19 == 37027) { break L2; }
      break L74;
     }
     if ((((l19 & 95) + -91) & 255) + Integer.MIN_VALUE >= -2147483418) { break L2; }
    }
    l11 = l4 - l7;
    l10 = l3 + l7;
    l7 = -560L;
    L85: {
     L86: {
      L87: {
       L88: {
        L89: {
         L90: while (true) {
          if ((l12 = l7 + 16L) == 0L) { break L89; }
          Words.put64(b, ((int) l8) - 58712, 0L);
          Words.put64(b, ((int) l8) - 58720, 0L);
          Words.put64(b, ((int) l8) - 58728, 0L);
          Core6.f197(m, l8 + 184L, Words.get64(b, ((int) (l7 + 98768L)) - 58912), Words.get64(b, ((int) (l7 + 98776L)) - 58912), l10, l11);
          l7 = l12;
          if ((b[((int) l8) - 58728] & 0xff) != 1) { continue L90; }
          break L88;
         }
        }
        L91: {
         if ((l17 = (l11 == 0L) ? 1 : 0) != 0) { break L91; }
         if ((l19 = (int) b[((int) l10) - 58912]) > -1) { break L91; }
         if (l19 + Integer.MIN_VALUE < 2147483616) { break L91; }
         l20 = l19 & 255;
         l21 = (b[((int) l10) - 58911] & 0xff) & 63;
         l22 = (b[((int) l10) - 58910] & 0xff) & 63;
         L92: {
          L93: {
           if (l19 + Integer.MIN_VALUE > 2147483631) { break L93; }
           l20 = ((l21 << 6) | ((l20 << 12) & 61440)) | l22;
           break L92;
          }
          l20 = ((l22 << 6) | ((l21 << 12) | ((l20 << 18) & 1835008))) | ((b[((int) l10) - 58909] & 0xff) & 63);
         }
         L94: {
          if (l20 == 24162) { break L94; }
          if (l20 == 26847) { break L94; }
          if (l20 != 26635) { break L91; }
         }
         if (l16 != 19968) { break L88; }
         if (l11 == (l7 = (l19 + Integer.MIN_VALUE < 2147483632) ? 3L : 4L)) { break L91; }
         l20 = (l19 = (int) b[((int) (l7 = l10 + l7)) - 58912]) & 255;
         L95: {
          if (l19 > -1) { break L95; }
          l21 = (b[((int) l7) - 58911] & 0xff) & 63;
          L96: {
           if (l19 + Integer.MIN_VALUE > 2147483615) { break L96; }
           l20 = ((l20 << 6) & 1984) | l21;
           break L95;
          }
          l22 = (b[((int) l7) - 58910] & 0xff) & 63;
          L97: {
           if (l19 + Integer.MIN_VALUE > 2147483631) { break L97; }
           l20 = ((l21 << 6) | ((l20 << 12) & 61440)) | l22;
           break L95;
          }
          l20 = ((l22 << 6) | ((l21 << 12) | ((l20 << 18) & 1835008))) | ((b[((int) l7) - 58909] & 0xff) & 63);
         }
         l7 = -44L;
         L98: {
          L99: while (true) {
           if ((l21 = (Words.get32(b, ((int) (l7 + 87508L)) - 58912) == l20) ? 1 : 0) != 0) { break L98; }
           l19 = (l7 != 0L) ? 1 : 0;
           l7 = l7 + 4L;
           if (l19 != 0) { continue L99; }
           break L99;
          }
         }
         if (l21 != 0) { break L88; }
        }
        L100: {
         if (l18 != 0) { break L100; }
         if (((int) b[((int) ((l7 = l1 + l9) + -1L)) - 58912]) > -1) { break L100; }
         l12 = -2L;
         L101: {
          if ((l19 = b[((int) (l7 + -2L)) - 58912] & 0xff) + Integer.MIN_VALUE > -2147483457) { break L101; }
          l12 = ((b[((int) (l7 + -3L)) - 58912] & 0xff) + Integer.MIN_VALUE > -2147483457) ? -3L : -4L;
         }
         if ((l20 = (int) b[((int) (l7 = (l1 + l12) + l9)) - 58912]) > -1) { break L100; }
         if (l20 + Integer.MIN_VALUE < 2147483616) { break L100; }
         l21 = l20 & 255;
         l22 = (b[((int) l7) - 58911] & 0xff) & 63;
         l23 = (b[((int) l7) - 58910] & 0xff) & 63;
         L102: {
          L103: {
           if (l20 + Integer.MIN_VALUE > 2147483631) { break L103; }
           l20 = ((l22 << 6) | ((l21 << 12) & 61440)) | l23;
           break L102;
          }
          l20 = ((l23 << 6) | ((l22 << 12) | ((l21 << 18) & 1835008))) | ((b[((int) l7) - 58909] & 0xff) & 63);
         }
         if (l20 != 25353) { break L100; }
         if (l17 != 0) { break L87; }
         l17 = (l20 = (int) b[((int) l10) - 58912]) & 255;
         L104: {
          if (l20 > -1) { break L104; }
          l21 = (b[((int) l10) - 58911] & 0xff) & 63;
          L105: {
           if (l20 + Integer.MIN_VALUE > 2147483615) { break L105; }
           l17 = ((l17 << 6) & 1984) | l21;
           break L104;
          }
          l22 = (b[((int) l10) - 58910] & 0xff) & 63;
          L106: {
           if (l20 + Integer.MIN_VALUE > 2147483631) { break L106; }
           l17 = ((l21 << 6) | ((l17 << 12) & 61440)) | l22;
           break L104;
          }
          l17 = ((l22 << 6) | ((l21 << 12) | ((l17 << 18) & 1835008))) | ((b[((int) l10) - 58909] & 0xff) & 63);
         }
         if ((l17 + -40960) + Integer.MIN_VALUE < 2147462656) { break L87; }
        }
        if (l16 == 19968) { break L2; }
        if (l16 == 38646) { break L2; }
        Words.put64(b, ((int) l8) - 58712, 0L);
        Words.put64(b, ((int) l8) - 58720, 0L);
        Words.put64(b, ((int) l8) - 58728, 0L);
        Core6.f197(m, l8 + 184L, 99184L, 6L, l10, l11);
        L107: {
         if ((b[((int) l8) - 58728] & 0xff) == 1) { break L107; }
         Words.put64(b, ((int) l8) - 58712, 0L);
         Words.put64(b, ((int) l8) - 58720, 0L);
         Words.put64(b, ((int) l8) - 58728, 0L);
         Core6.f197(m, l8 + 184L, 99190L, 6L, l10, l11);
         if ((b[((int) l8) - 58728] & 0xff) == 1) { break L107; }
         Words.put64(b, ((int) l8) - 58712, 0L);
         Words.put64(b, ((int) l8) - 58720, 0L);
         Words.put64(b, ((int) l8) - 58728, 0L);
         Core6.f197(m, l8 + 184L, 99196L, 6L, l10, l11);
         if ((b[((int) l8) - 58728] & 0xff) == 1) { break L107; }
         Words.put64(b, ((int) l8) - 58712, 0L);
         Words.put64(b, ((int) l8) - 58720, 0L);
         Words.put64(b, ((int) l8) - 58728, 0L);
         Core6.f197(m, l8 + 184L, 99202L, 6L, l10, l11);
         if ((b[((int) l8) - 58728] & 0xff) == 1) { break L107; }
         Words.put64(b, ((int) l8) - 58712, 0L);
         Words.put64(b, ((int) l8) - 58720, 0L);
         Words.put64(b, ((int) l8) - 58728, 0L);
         Core6.f197(m, l8 + 184L, 99208L, 3L, l10, l11);
         if ((b[((int) l8) - 58728] & 0xff) == 1) { break L107; }
         Words.put64(b, ((int) l8) - 58712, 0L);
         Words.put64(b, ((int) l8) - 58720, 0L);
         Words.put64(b, ((int) l8) - 58728, 0L);
         Core6.f197(m, l8 + 184L, 99211L, 6L, l10, l11);
         if ((b[((int) l8) - 58728] & 0xff) == 1) { break L107; }
         Words.put64(b, ((int) l8) - 58712, 0L);
         Words.put64(b, ((int) l8) - 58720, 0L);
         Words.put64(b, ((int) l8) - 58728, 0L);
         Core6.f197(m, l8 + 184L, 99217L, 6L, l10, l11);
         if ((b[((int) l8) - 58728] & 0xff) == 1) { break L107; }
         Words.put64(b, ((int) l8) - 58712, 0L);
         Words.put64(b, ((int) l8) - 58720, 0L);
         Words.put64(b, ((int) l8) - 58728, 0L);
         Core6.f197(m, l8 + 184L, 99223L, 6L, l10, l11);
         if ((b[((int) l8) - 58728] & 0xff) == 1) { break L107; }
         Words.put64(b, ((int) l8) - 58712, 0L);
         Words.put64(b, ((int) l8) - 58720, 0L);
         Words.put64(b, ((int) l8) - 58728, 0L);
         Core6.f197(m, l8 + 184L, 99229L, 6L, l10, l11);
         if ((b[((int) l8) - 58728] & 0xff) == 1) { break L107; }
         Words.put64(b, ((int) l8) - 58712, 0L);
         Words.put64(b, ((int) l8) - 58720, 0L);
         Words.put64(b, ((int) l8) - 58728, 0L);
         Core6.f197(m, l8 + 184L, 99235L, 6L, l10, l11);
         if ((b[((int) l8) - 58728] & 0xff) == 1) { break L107; }
         Words.put64(b, ((int) l8) - 58712, 0L);
         Words.put64(b, ((int) l8) - 58720, 0L);
         Words.put64(b, ((int) l8) - 58728, 0L);
         Core6.f197(m, l8 + 184L, 99241L, 9L, l10, l11);
         if ((b[((int) l8) - 58728] & 0xff) == 1) { break L107; }
         Words.put64(b, ((int) l8) - 58712, 0L);
         Words.put64(b, ((int) l8) - 58720, 0L);
         Words.put64(b, ((int) l8) - 58728, 0L);
         Core6.f197(m, l8 + 184L, 99250L, 9L, l10, l11);
         if ((b[((int) l8) - 58728] & 0xff) == 1) { break L107; }
         Words.put64(b, ((int) l8) - 58712, 0L);
         Words.put64(b, ((int) l8) - 58720, 0L);
         Words.put64(b, ((int) l8) - 58728, 0L);
         Core6.f197(m, l8 + 184L, 99259L, 9L, l10, l11);
         if ((b[((int) l8) - 58728] & 0xff) != 1) { break L2; }
        }
        Words.put64(b, ((int) l8) - 58712, 0L);
        Words.put64(b, ((int) l8) - 58720, 0L);
        Words.put64(b, ((int) l8) - 58728, 0L);
        Core6.f197(m, l8 + 184L, 99320L, 12L, l10, l11);
        if ((b[((int) l8) - 58728] & 0xff) == 1) { break L2; }
        Words.put64(b, ((int) l8) - 58712, 0L);
        Words.put64(b, ((int) l8) - 58720, 0L);
        Words.put64(b, ((int) l8) - 58728, 0L);
        Core6.f197(m, l8 + 184L, 99332L, 12L, l10, l11);
        if ((b[((int) l8) - 58728] & 0xff) == 1) { break L2; }
        Words.put64(b, ((int) l8) - 58712, 0L);
        Words.put64(b, ((int) l8) - 58720, 0L);
        Words.put64(b, ((int) l8) - 58728, 0L);
        Core6.f197(m, l8 + 184L, 99344L, 6L, l10, l11);
        if ((b[((int) l8) - 58728] & 0xff) == 1) { break L2; }
       }
       if (l18 != 0) { break L85; }
       if ((l18 = (int) b[((int) ((l7 = l1 + l9) + -1L)) - 58912]) > -1) { break L86; }
       l19 = b[((int) (l7 + -2L)) - 58912] & 0xff;
      }
      l7 = -2L;
      L108: {
       if ((l19 & 255) + Integer.MIN_VALUE > -2147483457) { break L108; }
       l7 = ((b[((int) ((l1 + l9) + -3L)) - 58912] & 0xff) + Integer.MIN_VALUE > -2147483457) ? -3L : -4L;
      }
      l18 = (l19 = (int) b[((int) (l7 = (l1 + l7) + l9)) - 58912]) & 255;
      if (l19 > -1) { break L86; }
      l17 = (b[((int) l7) - 58911] & 0xff) & 63;
      L109: {
       if (l19 + Integer.MIN_VALUE > 2147483615) { break L109; }
       l18 = ((l18 << 6) & 1984) | l17;
       break L86;
      }
      l20 = (b[((int) l7) - 58910] & 0xff) & 63;
      L110: {
       if (l19 + Integer.MIN_VALUE > 2147483631) { break L110; }
       l18 = ((l17 << 6) | ((l18 << 12) & 61440)) | l20;
       break L86;
      }
      l18 = ((l20 << 6) | ((l17 << 12) | ((l18 << 18) & 1835008))) | ((b[((int) l7) - 58909] & 0xff) & 63);
     }
     Core2.f63(m, l8 + 16L, l18);
     if ((b[((int) l8) - 58896] & 0xff) == 1) { break L2; }
     Core2.f61(m, l8 + 8L, l18);
     if ((b[((int) l8) - 58904] & 0xff) == 1) { break L2; }
    }
    l18 = 1;
    l7 = 0L;
    l12 = l11;
   }
   Core4.f119(m, l8 + 24L, l1, l2, l3, l4, l5, l6);
   L111: {
    L112: {
     if ((b[((int) l8) - 58888] & 0xff) != 1) { break L112; }
     if ((l19 = b[((int) l8) - 58880] & 0xff) == 3) { break L112; }
     l14 = Words.get64(b, ((int) l8) - 58776);
     L113: {
      L114: {
       L115: {
        switch (l19) {
        case 1: break L114;
        case 2: break L113;
        default: break L115;
        }
       }
       l14 = Words.get64(b, ((int) l8) - 58856);
       break L113;
      }
      l14 = Words.get64(b, ((int) l8) - 58768);
     }
     if (l14 + Long.MIN_VALUE >= l12 + Long.MIN_VALUE) { break L112; }
     l16 = 0;
     l11 = 0L;
     l10 = 0L;
     l7 = 0L;
     l12 = 0L;
     l18 = 0;
     break L111;
    }
    l12 = 1L;
   }
   Words.put64(b, ((int) l0) - 58912, l12);
   Words.put64(b, ((int) (l0 + 32L)) - 58912, l7);
   Words.put64(b, ((int) (l0 + 24L)) - 58912, l11);
   Words.put64(b, ((int) (l0 + 16L)) - 58912, l10);
   Words.put32(b, ((int) (l0 + 12L)) - 58912, l16);
   Words.put32(b, ((int) (l0 + 8L)) - 58912, l18);
   break L1;
  }
  Words.put64(b, ((int) l0) - 58880, 0L);
  Words.put64(b, ((int) l0) - 58888, 0L);
  Words.put64(b, ((int) l0) - 58896, 0L);
  Words.put64(b, ((int) l0) - 58904, 0L);
  Words.put64(b, ((int) l0) - 58912, 0L);
 }
 m.g0 = l8 + 272L;
}

static void f262(State m, long l0, long l1, long l2) {
 final byte[] b = m.bytes;
 int l3 = 0;
 int l4 = 0;
 int l5 = 0;
 int l6 = 0;
 int l7 = 0;
 long l8 = 0;
 long l9 = 0;
 long l10 = 0;
 long l11 = 0;
 long l12 = 0;
 long l13 = 0;
 long l14 = 0;
 long l15 = 0;
 long l16 = 0;
 L1: {
  L2: {
   L3: {
    if (m.g0 < 16L) { break L3; }
    L4: {
     L5: {
      if ((l3 = (l2 == 0L) ? 1 : 0) == 0) { break L5; }
      l8 = 0L;
      l9 = l1;
      break L4;
     }
     L6: {
      L7: {
       if ((l4 = (int) b[((int) l1) - 58912]) <= -1) { break L7; }
       l10 = 1L;
       break L6;
      }
      L8: {
       if (l4 + Integer.MIN_VALUE >= 2147483616) { break L8; }
       l10 = 2L;
       break L6;
      }
      l10 = (l4 + Integer.MIN_VALUE < 2147483632) ? 3L : 4L;
     }
     l8 = l2 - l10;
     l9 = l1 + l10;
    }
    l2 = l9;
    l11 = l8;
    L9: {
     L10: while (true) {
      l10 = l2;
      if ((l12 = l11) == 0L) { break L9; }
      l5 = (l4 = (int) b[((int) l10) - 58912]) & 255;
      l13 = 1L;
      L11: {
       if (l4 > -1) { break L11; }
       l6 = (b[((int) l10) - 58911] & 0xff) & 63;
       L12: {
        if (l4 + Integer.MIN_VALUE > 2147483615) { break L12; }
        l5 = ((l5 << 6) & 1984) | l6;
        l13 = 2L;
        break L11;
       }
       l7 = (b[((int) l10) - 58910] & 0xff) & 63;
       L13: {
        if (l4 + Integer.MIN_VALUE > 2147483631) { break L13; }
        l5 = ((l6 << 6) | ((l5 << 12) & 61440)) | l7;
        l13 = 3L;
        break L11;
       }
       l5 = ((l7 << 6) | ((l6 << 12) | ((l5 << 18) & 1835008))) | ((b[((int) l10) - 58909] & 0xff) & 63);
       l13 = 4L;
      }
      l2 = -44L;
      L14: {
       L15: while (true) {
        if ((l6 = (Words.get32(b, ((int) (l2 + 87508L)) - 58912) == l5) ? 1 : 0) != 0) { break L14; }
        l4 = (l2 != 0L) ? 1 : 0;
        l2 = l2 + 4L;
        if (l4 != 0) { continue L15; }
        break L15;
       }
      }
      l11 = l12 - l13;
      l2 = l10 + l13;
      if (l6 != 0) { continue L10; }
      break L10;
     }
    }
    L16: {
     L17: {
      if (l3 != 0) { break L17; }
      l2 = 0L;
      l14 = 0L;
      l15 = 0L;
      l13 = 0L;
      l11 = 0L;
      if ((l4 = (int) b[((int) l1) - 58912]) > -1) { break L1; }
      l2 = 0L;
      l14 = 0L;
      l15 = 0L;
      l13 = 0L;
      l11 = 0L;
      if (l4 + Integer.MIN_VALUE < 2147483616) { break L1; }
      l5 = l4 & 255;
      l6 = (b[((int) l1) - 58911] & 0xff) & 63;
      l7 = (b[((int) l1) - 58910] & 0xff) & 63;
      L18: {
       L19: {
        if (l4 + Integer.MIN_VALUE > 2147483631) { break L19; }
        l4 = ((l6 << 6) | ((l5 << 12) & 61440)) | l7;
        break L18;
       }
       l4 = ((l7 << 6) | ((l6 << 12) | ((l5 << 18) & 1835008))) | ((b[((int) l1) - 58909] & 0xff) & 63);
      }
      L20: {
       if (l4 == 40670) { break L20; }
       l2 = 0L;
       l14 = 0L;
       l15 = 0L;
       l13 = 0L;
       l11 = 0L;
       if (l4 != 28857) { break L1; }
      }
      if (l8 == 0L) { break L17; }
      l5 = (l7 = (int) b[((int) l9) - 58912]) & 255;
      L21: {
       if (l7 > -1) { break L21; }
       l4 = (b[((int) l9) - 58911] & 0xff) & 63;
       L22: {
        if (l7 + Integer.MIN_VALUE > 2147483615) { break L22; }
        l5 = ((l5 << 6) & 1984) | l4;
        break L21;
       }
       l6 = (b[((int) l9) - 58910] & 0xff) & 63;
       L23: {
        if (l7 + Integer.MIN_VALUE > 2147483631) { break L23; }
        l5 = ((l4 << 6) | ((l5 << 12) & 61440)) | l6;
        break L21;
       }
       l5 = ((l6 << 6) | ((l4 << 12) | ((l5 << 18) & 1835008))) | ((b[((int) l9) - 58909] & 0xff) & 63);
      }
      l13 = l8 - l12;
      l2 = -44L;
      L24: {
       L25: while (true) {
        if ((l6 = Words.get32(b, ((int) (l2 + 87508L)) - 58912)) == l5) { break L24; }
        l4 = (l2 != 0L) ? 1 : 0;
        l2 = l2 + 4L;
        if (l4 != 0) { continue L25; }
        break L25;
       }
      }
      l2 = 0L;
      if (l6 != l5) { break L16; }
      L26: {
       if (!(l13 == 0L)) { break L26; }
       l11 = 1L;
       l2 = l10;
       l14 = l12;
       l15 = l9;
       l13 = 0L;
       break L1;
      }
      l11 = 1L;
      l2 = 1L;
      L27: {
       if (l7 > -1) { break L27; }
       l2 = 2L;
       if (l7 + Integer.MIN_VALUE < 2147483616) { break L27; }
       l2 = (l7 + Integer.MIN_VALUE < 2147483632) ? 3L : 4L;
      }
      if (l13 == l2) { break L2; }
      l11 = 1L;
      l1 = 1L;
      L28: {
       if ((l4 = (int) b[((int) (l14 = l9 + l2)) - 58912]) > -1) { break L28; }
       l1 = 2L;
       if (l4 + Integer.MIN_VALUE < 2147483616) { break L28; }
       l1 = (l4 + Integer.MIN_VALUE < 2147483632) ? 3L : 4L;
      }
      if (l13 == (l15 = l2 + l1)) { break L2; }
      l11 = 1L;
      l2 = 1L;
      L29: {
       if ((l4 = (int) b[((int) (l1 = l14 + l1)) - 58912]) > -1) { break L29; }
       l2 = 2L;
       if (l4 + Integer.MIN_VALUE < 2147483616) { break L29; }
       l2 = (l4 + Integer.MIN_VALUE < 2147483632) ? 3L : 4L;
      }
      if (l13 == (l8 = l15 + l2)) { break L2; }
      l11 = 1L;
      l16 = 1L;
      L30: {
       if ((l4 = (int) b[((int) (l1 + l2)) - 58912]) > -1) { break L30; }
       l16 = 2L;
       if (l4 + Integer.MIN_VALUE < 2147483616) { break L30; }
       l16 = (l4 + Integer.MIN_VALUE < 2147483632) ? 3L : 4L;
      }
      l2 = l10;
      l14 = l12;
      l15 = l9;
      if (l13 == (l8 + l16)) { break L1; }
     }
     l2 = 0L;
    }
    l14 = 0L;
    l15 = 0L;
    l13 = 0L;
    l11 = 0L;
    break L1;
   }
   throw State.trap();
  }
  l2 = l10;
  l14 = l12;
  l15 = l9;
 }
 Words.put64(b, ((int) l0) - 58912, l11);
 Words.put64(b, ((int) (l0 + 40L)) - 58912, l14);
 Words.put64(b, ((int) (l0 + 32L)) - 58912, l2);
 Words.put64(b, ((int) (l0 + 24L)) - 58912, 0L);
 Words.put64(b, ((int) (l0 + 16L)) - 58912, l13);
 Words.put64(b, ((int) (l0 + 8L)) - 58912, l15);
}

static int f263(State m, long l0, long l1, long l2, long l3) {
 final byte[] b = m.bytes;
 long l4 = 0;
 long l5 = 0;
 long l6 = 0;
 long l7 = 0;
 long l8 = 0;
 long l9 = 0;
 long l10 = 0;
 int l11 = 0;
 int l12 = 0;
 int l13 = 0;
 int l14 = 0;
 m.g0 = l4 = m.g0 - 320L;
 Words.put16(b, ((int) (l5 = l4)) - 58728, (short) (Words.get16(b, ((int) l0) - 58904) & 0xffff));
 Words.put64(b, ((int) l5) - 58736, Words.get64(b, ((int) l0) - 58912));
 L1: {
  if (l5 < 16L) { break L1; }
  l6 = l3 + 32L;
  l7 = Words.get64(b, ((int) l3) - 58904);
  l8 = Words.get64(b, ((int) l3) - 58912);
  l0 = l9 = Words.get64(b, ((int) l3) - 58896);
  l4 = l10 = Words.get64(b, ((int) l3) - 58888);
  L2: {
   L3: {
    L4: while (true) {
     if (l4 == 0L) { break L3; }
     l12 = (l11 = (int) b[((int) l0) - 58912]) & 255;
     l3 = 1L;
     L5: {
      if (l11 > -1) { break L5; }
      l13 = (b[((int) l0) - 58911] & 0xff) & 63;
      L6: {
       if (l11 + Integer.MIN_VALUE > 2147483615) { break L6; }
       l12 = ((l12 << 6) & 1984) | l13;
       l3 = 2L;
       break L5;
      }
      l14 = (b[((int) l0) - 58910] & 0xff) & 63;
      L7: {
       if (l11 + Integer.MIN_VALUE > 2147483631) { break L7; }
       l12 = ((l13 << 6) | ((l12 << 12) & 61440)) | l14;
       l3 = 3L;
       break L5;
      }
      l12 = ((l14 << 6) | ((l13 << 12) | ((l12 << 18) & 1835008))) | ((b[((int) l0) - 58909] & 0xff) & 63);
      l3 = 4L;
     }
     l11 = 0;
     if ((l12 + -48) + Integer.MIN_VALUE < -2147483638) { break L2; }
     l4 = l4 - l3;
     l0 = l0 + l3;
     if ((l12 + -65296) + Integer.MIN_VALUE >= -2147483638) { continue L4; }
     break L2;
    }
   }
   Words.put64(b, ((int) l5) - 58760, l10);
   Words.put64(b, ((int) l5) - 58768, l9);
   Words.put64(b, ((int) l5) - 58784, l8);
   Words.put64(b, ((int) l5) - 58752, Words.get64(b, ((int) l6) - 58912));
   Words.put64(b, ((int) l5) - 58744, Words.get64(b, ((int) l6) - 58904));
   Words.put64(b, ((int) l5) - 58776, l7);
   l12 = b[((int) l5) - 58735] & 0xff;
   l11 = b[((int) l5) - 58736] & 0xff;
   m.fill((int) (l5 + 192L), 0, (int) 128L);
   Core4.f119(m, l5 + 192L, l1, l2, l1 + l7, l2 - l7, l11, l12);
   Words.put64(b, ((int) l5) - 58912, b[((int) l5) - 58720] & 0xffL);
   Words.put64(b, ((int) l5) - 58904, b[((int) l5) - 58712] & 0xffL);
   m.copy((int) (l5 + 16L), (int) ((l5 + 192L) + 16L), (int) 112L);
   l11 = f264(m, l5 + 176L, l1, l2, l5 + 128L, l5) ^ 1;
  }
  m.g0 = l5 + 320L;
  final int t8 = l11;
  return t8;
 }
 throw State.trap();
}

static int f264_1(State m, long l0, long l1, long l2, long l3, long l4, long l5, long l6, long l7, long l8, long l9, long l10, long l11, long l12, long l13, long l14, long l15, long l16, int l17, int l18, int l19, int l20, int l21, int l22, int l23, int l24) {
 final byte[] b = m.bytes;
 int exit = 0;
 PART: {
  L6: {
   L7: {
    L8: {
     switch (l21) {
     case 1: break L7;
     case 2: break L6;
     case 3: exit = 1; break PART;
     default: break L8;
     }
    }
    Words.put16(b, ((int) l5) - 58620, (short) (l21 = (int) (l0 >>> 40L)));
    b[((int) (l5 + 294L)) - 58912] = (byte) (l21 >>> 16);
    b[((int) l5) - 58621] = (byte) l24;
    b[((int) l5) - 58622] = (byte) l22;
    Words.put16(b, ((int) l5) - 58624, (short) ((int) (l0 >>> 8L)));
    b[((int) l5) - 58775] = (byte) l17;
    b[((int) l5) - 58776] = (byte) l20;
    Words.put64(b, ((int) l5) - 58760, l12);
    Words.put64(b, ((int) l5) - 58640, l7 = Words.get64(b, ((int) l4) - 58912));
    Words.put64(b, ((int) l5) - 58634, l4 = Words.get64(b, ((int) l4) - 58906));
    Words.put64(b, ((int) l5) - 58774, l7);
    Words.put64(b, ((int) l5) - 58768, l4);
    if ((l23 = f265(m, l5 + 288L, l14, l13, l5 + 136L, l4 = l1 + l13, l7 = l2 - l13)) == 0) { exit = 2; break PART; }
    L9: {
     if ((l0 & 281474976710656L) == 0L) { break L9; }
     b[((int) l5) - 58463] = (byte) l17;
     b[((int) l5) - 58464] = (byte) l20;
     Words.put64(b, ((int) l5) - 58462, Words.get64(b, ((int) l5) - 58640));
     Words.put64(b, ((int) l5) - 58456, Words.get64(b, ((int) l5) - 58634));
     Words.put64(b, ((int) l5) - 58448, l12);
     if ((f266(m, l14, l13, l5 + 448L, l4, l7) & 1) == 0) { break L9; }
     b[((int) l5) - 58463] = (byte) l17;
     b[((int) l5) - 58464] = (byte) l20;
     Words.put64(b, ((int) l5) - 58462, Words.get64(b, ((int) l5) - 58640));
     Words.put64(b, ((int) l5) - 58456, Words.get64(b, ((int) l5) - 58634));
     Words.put64(b, ((int) l5) - 58448, l12);
     final int t10 = f266(m, l14, l13, l5 + 448L, l4, l7);
     exit = 2; break PART;
    }
    l6 = 0L;
    Words.put64(b, ((int) l5) - 58592, 0L);
    Words.put64(b, ((int) l5) - 58600, 0L);
    Words.put64(b, ((int) l5) - 58608, 0L);
    Core5.f155(m, l5 + 304L, l20, l4, l7);
    if ((b[((int) l5) - 58608] & 0xff) != 1) { exit = 2; break PART; }
    l0 = Words.get64(b, ((int) l5) - 58592);
    l13 = Words.get64(b, ((int) l5) - 58600);
    Words.put64(b, ((int) l5) - 58752, 0L);
    Words.put64(b, ((int) l5) - 58744, 0L);
    Words.put64(b, ((int) l5) - 58736, 0L);
    Words.put64(b, ((int) l5) - 58728, 0L);
    l11 = Words.get64(b, State.far((int) (l4 = ((l17 & 0xffffffffL) & 255L) << 3L), 102544));
    l15 = Words.get64(b, State.far((int) l4, 102288));
    l18 = 0;
    l4 = 0L;
    l19 = 0;
    L11: while (true) {
     Words.put64(b, ((int) l5) - 58528, l3 = l0);
     Words.put64(b, ((int) l5) - 58536, l12 = l13);
     b[((int) l5) - 58537] = (byte) l19;
     b[((int) l5) - 58538] = (byte) (l22 = l18);
     Words.put32(b, ((int) l5) - 58544, (int) l4);
     Words.put16(b, ((int) l5) - 58540, (short) (l4 >>> 32L));
     Core5.f156(m, l5 + 160L, b[((int) (l4 = l11 + (l6 << 1L))) - 58912] & 0xff, b[((int) (l7 = l4 + 1L)) - 58912] & 0xff, l5 + 368L);
     if ((b[((int) l5) - 58752] & 0xff) != 1) { exit = 2; break PART; }
     l0 = Words.get64(b, ((int) l5) - 58728);
     l13 = Words.get64(b, ((int) l5) - 58736);
     l19 = b[((int) l5) - 58737] & 0xff;
     l18 = b[((int) l5) - 58738] & 0xff;
     L12: {
      if ((b[((int) l4) - 58912] & 0xff) != 0) { break L12; }
      if (((b[((int) l7) - 58912] & 0xff) & 255) == 9) { break L12; }
      Words.put64(b, ((int) l5) - 58440, 0L);
      Words.put64(b, ((int) l5) - 58448, 0L);
      Words.put64(b, ((int) l5) - 58456, 0L);
      Words.put64(b, ((int) l5) - 58464, 0L);
      Core4.f132(m, l5 + 8L, l22 & 1, l12, l3);
      Core4.f131(m, l5 + 448L, Words.get64(b, ((int) l5) - 58904), Words.get64(b, ((int) l5) - 58896));
      l4 = l12 = Words.get64(b, ((int) l5) - 58464);
      l3 = l16 = Words.get64(b, ((int) l5) - 58456);
      L13: {
       L14: while (true) {
        if (l3 == 0L) { break L13; }
        l22 = (l21 = (int) b[((int) l4) - 58912]) & 255;
        l7 = 1L;
        L15: {
         if (l21 > -1) { break L15; }
         l20 = (b[((int) l4) - 58911] & 0xff) & 63;
         L16: {
          if (l21 + Integer.MIN_VALUE > 2147483615) { break L16; }
          l22 = ((l22 << 6) & 1984) | l20;
          l7 = 2L;
          break L15;
         }
         l17 = (b[((int) l4) - 58910] & 0xff) & 63;
         L17: {
          if (l21 + Integer.MIN_VALUE > 2147483631) { break L17; }
          l22 = ((l20 << 6) | ((l22 << 12) & 61440)) | l17;
          l7 = 3L;
          break L15;
         }
         l22 = ((l17 << 6) | ((l20 << 12) | ((l22 << 18) & 1835008))) | ((b[((int) l4) - 58909] & 0xff) & 63);
         l7 = 4L;
        }
        if ((l22 + -48) + Integer.MIN_VALUE < -2147483638) { break L12; }
        l3 = l3 - l7;
        l4 = l4 + l7;
        if ((l22 + -65296) + Integer.MIN_VALUE >= -2147483638) { continue L14; }
        break L12;
       }
      }
      if ((f267(m, 1, l12, l16) & 1) == 0) { break L12; }
      final int t18 = f267(m, 1, l12, l16);
     }
     l4 = (Words.get32(b, ((int) l5) - 58744) & 0xffffffffL) | ((Words.get16(b, ((int) (l5 + 172L)) - 58912) & 0xffffL) << 32L);
     if ((l6 = l6 + 1L) != l15) { continue L11; }
     exit = 2; break PART;
    }
   }
   Words.put64(b, ((int) l5) - 58624, Words.get64(b, ((int) l4) - 58912));
   Words.put64(b, ((int) l5) - 58618, Words.get64(b, ((int) l4) - 58906));
   Words.put64(b, ((int) l5) - 58640, Words.get64(b, ((int) l16) - 58912));
   Words.put64(b, ((int) l5) - 58632, Words.get64(b, ((int) l16) - 58904));
   Words.put64(b, ((int) l5) - 58776, Words.get64(b, ((int) l15) - 58912));
   Words.put64(b, ((int) l5) - 58768, Words.get64(b, ((int) l15) - 58904));
   Words.put64(b, ((int) l5) - 58762, Words.get64(b, ((int) l15) - 58898));
   L19: {
    if ((l20 & 255) + Integer.MIN_VALUE > -2147483646) { break L19; }
    Words.put64(b, ((int) l5) - 58440, l8);
    Words.put64(b, ((int) l5) - 58448, l9);
    Words.put64(b, ((int) l5) - 58456, l10);
    Words.put64(b, ((int) l5) - 58464, l11);
    Words.put64(b, ((int) l5) - 58432, Words.get64(b, ((int) l16) - 58912));
    Words.put64(b, ((int) l5) - 58424, Words.get64(b, ((int) l16) - 58904));
    l23 = f268(m, l0, l5 + 448L);
    exit = 2; break PART;
   }
   L20: {
    if ((l0 & 16777216L) != 0L) { break L20; }
    b[((int) l5) - 58751] = (byte) l17;
    b[((int) l5) - 58752] = (byte) l20;
    Words.put64(b, ((int) l5) - 58704, l8);
    Words.put64(b, ((int) l5) - 58712, l9);
    Words.put64(b, ((int) l5) - 58720, l10);
    Words.put64(b, ((int) l5) - 58728, l11);
    Words.put64(b, ((int) l5) - 58736, l12);
    b[((int) l5) - 58663] = (byte) l18;
    b[((int) l5) - 58664] = (byte) l19;
    Words.put64(b, ((int) l5) - 58672, l6);
    Words.put64(b, ((int) l5) - 58680, l7);
    Words.put64(b, ((int) l5) - 58750, Words.get64(b, ((int) l4) - 58912));
    Words.put64(b, ((int) l5) - 58744, Words.get64(b, ((int) l4) - 58906));
    Words.put64(b, ((int) l5) - 58696, Words.get64(b, ((int) l16) - 58912));
    Words.put64(b, ((int) l5) - 58688, Words.get64(b, ((int) l16) - 58904));
    Words.put64(b, ((int) l5) - 58648, Words.get64(b, ((int) l15) - 58898));
    Words.put64(b, ((int) l5) - 58654, Words.get64(b, ((int) l15) - 58904));
    Words.put64(b, ((int) l5) - 58662, Words.get64(b, ((int) l15) - 58912));
    if (Core4.f123(m, l14, l13, l5 + 160L) == 0) { break L20; }
    l23 = 0;
    exit = 2; break PART;
   }
   l4 = l9;
   l13 = l8;
   L21: {
    if ((l0 & 281474976710656L) == 0L) { break L21; }
    l4 = l9;
    l13 = l8;
    if (((l19 | l18) & 255) == 0) { break L21; }
    Words.put64(b, ((int) l5) - 58608, 0L);
    Words.put64(b, ((int) l5) - 58600, 0L);
    Words.put64(b, ((int) l5) - 58592, 0L);
    Words.put64(b, ((int) l5) - 58584, 0L);
    Words.put64(b, ((int) l5) - 58576, 0L);
    Words.put64(b, ((int) l5) - 58568, 0L);
    Words.put64(b, ((int) l5) - 58560, 0L);
    Words.put64(b, ((int) l5) - 58552, 0L);
    b[((int) l5) - 58463] = (byte) l17;
    b[((int) l5) - 58464] = (byte) l20;
    Words.put64(b, ((int) l5) - 58462, Words.get64(b, ((int) l5) - 58624));
    Words.put64(b, ((int) l5) - 58456, Words.get64(b, ((int) l5) - 58618));
    Words.put64(b, ((int) l5) - 58416, l8);
    Words.put64(b, ((int) l5) - 58424, l9);
    Words.put64(b, ((int) l5) - 58432, l10);
    Words.put64(b, ((int) l5) - 58440, l11);
    Words.put64(b, ((int) l5) - 58448, l12);
    Words.put64(b, ((int) l5) - 58392, l7);
    Words.put64(b, ((int) l5) - 58384, l6);
    b[((int) l5) - 58375] = (byte) l18;
    b[((int) l5) - 58376] = (byte) l19;
    Words.put64(b, ((int) l5) - 58400, Words.get64(b, ((int) l5) - 58632));
    Words.put64(b, ((int) l5) - 58408, Words.get64(b, ((int) l5) - 58640));
    Words.put64(b, ((int) l5) - 58374, Words.get64(b, ((int) l5) - 58776));
    Words.put64(b, ((int) l5) - 58366, Words.get64(b, ((int) l5) - 58768));
    Words.put64(b, ((int) l5) - 58360, Words.get64(b, ((int) l5) - 58762));
    Core4.f124(m, l5 + 304L, l5 + 448L);
    if ((l23 = b[((int) l5) - 58608] & 0xff) != 1) { exit = 2; break PART; }
    m.fill((int) (l5 + 368L), 0, (int) 80L);
    Core2.f52(m, l5 + 56L, l5 + 368L, l5 + 320L);
    exit = 2; break PART;
   }
   L22: {
    L23: while (true) {
     if (l13 == 0L) { break L22; }
     l22 = (l21 = (int) b[((int) l4) - 58912]) & 255;
     l3 = 1L;
     L24: {
      if (l21 > -1) { break L24; }
      l20 = (b[((int) l4) - 58911] & 0xff) & 63;
      L25: {
       if (l21 + Integer.MIN_VALUE > 2147483615) { break L25; }
       l22 = ((l22 << 6) & 1984) | l20;
       l3 = 2L;
       break L24;
      }
      l23 = (b[((int) l4) - 58910] & 0xff) & 63;
      L26: {
       if (l21 + Integer.MIN_VALUE > 2147483631) { break L26; }
       l22 = ((l20 << 6) | ((l22 << 12) & 61440)) | l23;
       l3 = 3L;
       break L24;
      }
      l22 = ((l23 << 6) | ((l20 << 12) | ((l22 << 18) & 1835008))) | ((b[((int) l4) - 58909] & 0xff) & 63);
      l3 = 4L;
     }
     L27: {
      if ((l22 + -48) + Integer.MIN_VALUE < -2147483638) { break L27; }
      l13 = l13 - l3;
      l4 = l4 + l3;
      if ((l22 + -65296) + Integer.MIN_VALUE > -2147483639) { continue L23; }
     }
     break L23;
    }
    if ((l24 & 255) == 0) { exit = 3; break PART; }
    l4 = l9;
    l0 = l8;
    L28: while (true) {
     if (l0 == 0L) { exit = 3; break PART; }
     l22 = (l21 = (int) b[((int) l4) - 58912]) & 255;
     l3 = 1L;
     L29: {
      if (l21 > -1) { break L29; }
      l20 = (b[((int) l4) - 58911] & 0xff) & 63;
      L30: {
       if (l21 + Integer.MIN_VALUE > 2147483615) { break L30; }
       l22 = ((l22 << 6) & 1984) | l20;
       l3 = 2L;
       break L29;
      }
      l23 = (b[((int) l4) - 58910] & 0xff) & 63;
      L31: {
       if (l21 + Integer.MIN_VALUE > 2147483631) { break L31; }
       l22 = ((l20 << 6) | ((l22 << 12) & 61440)) | l23;
       l3 = 3L;
       break L29;
      }
      l22 = ((l23 << 6) | ((l20 << 12) | ((l22 << 18) & 1835008))) | ((b[((int) l4) - 58909] & 0xff) & 63);
      l3 = 4L;
     }
     Core2.f61(m, l5 + 48L, l22);
     l0 = l0 - l3;
     l4 = l4 + l3;
     if ((b[((int) l5) - 58864] & 0xff) != 1) { continue L28; }
     if (((b[((int) l5) - 58863] & 0xff) & 255) + Integer.MIN_VALUE < -2147483646) { continue L28; }
     break L28;
    }
   }
   L32: {
    if ((l24 & 255) == 0) { break L32; }
    Words.put64(b, ((int) l5) - 58408, 0L);
    Words.put64(b, ((int) l5) - 58416, 0L);
    Words.put64(b, ((int) l5) - 58424, 0L);
    Words.put64(b, ((int) l5) - 58432, 0L);
    Words.put64(b, ((int) l5) - 58440, 0L);
    Words.put64(b, ((int) l5) - 58448, 0L);
    Words.put64(b, ((int) l5) - 58456, 0L);
    Words.put64(b, ((int) l5) - 58464, 0L);
    Core3.f80(m, l5 + 448L, l9, l8, 1);
    Words.put64(b, ((int) l5) - 58544, Words.get64(b, ((int) l5) - 58448));
    Words.put64(b, ((int) l5) - 58536, Words.get64(b, ((int) l5) - 58440));
    Words.put64(b, ((int) l5) - 58528, Words.get64(b, ((int) l5) - 58432));
    Words.put64(b, ((int) l5) - 58520, Words.get64(b, ((int) l5) - 58424));
    Words.put64(b, ((int) l5) - 58512, Words.get64(b, ((int) l5) - 58416));
    Words.put64(b, ((int) l5) - 58504, Words.get64(b, ((int) l5) - 58408));
    L33: {
     if ((b[((int) l5) - 58464] & 0xff) != 0) { break L33; }
     m.fill((int) (l5 + 448L), 0, (int) 80L);
     Core2.f52(m, l5 + 32L, l5 + 448L, l5 + 368L);
     exit = 3; break PART;
    }
    l23 = 0;
    exit = 2; break PART;
   }
   if ((f267(m, 1, l9, l8) & 1) != 0) { exit = 3; break PART; }
   l23 = 0;
   exit = 2; break PART;
  }
 }
 m.kept[0] = l0;
 m.kept[1] = l3;
 m.kept[2] = l4;
 m.kept[3] = l6;
 m.kept[4] = l7;
 m.kept[5] = l11;
 m.kept[6] = l12;
 m.kept[7] = l13;
 m.kept[8] = l15;
 m.kept[9] = l16;
 m.kept[10] = l17;
 m.kept[11] = l18;
 m.kept[12] = l19;
 m.kept[13] = l20;
 m.kept[14] = l21;
 m.kept[15] = l22;
 m.kept[16] = l23;
 return exit;
}

static int f264(State m, long l0, long l1, long l2, long l3, long l4) {
 final byte[] b = m.bytes;
 long l5 = 0;
 long l6 = 0;
 long l7 = 0;
 long l8 = 0;
 long l9 = 0;
 long l10 = 0;
 long l11 = 0;
 long l12 = 0;
 long l13 = 0;
 long l14 = 0;
 long l15 = 0;
 long l16 = 0;
 int l17 = 0;
 int l18 = 0;
 int l19 = 0;
 int l20 = 0;
 int l21 = 0;
 int l22 = 0;
 int l23 = 0;
 int l24 = 0;
 m.g0 = l5 = m.g0 - 560L;
 L1: {
  L2: {
   L3: {
    if ((l5 = l5) < 16L) { break L3; }
    l17 = b[((int) (l4 + 17L)) - 58912] & 0xff;
    l18 = b[((int) (l4 + 105L)) - 58912] & 0xff;
    l19 = b[((int) (l4 + 104L)) - 58912] & 0xff;
    l6 = Words.get64(b, ((int) (l4 + 96L)) - 58912);
    l7 = Words.get64(b, ((int) (l4 + 88L)) - 58912);
    l8 = Words.get64(b, ((int) (l4 + 64L)) - 58912);
    l9 = Words.get64(b, ((int) (l4 + 56L)) - 58912);
    l10 = Words.get64(b, ((int) (l4 + 48L)) - 58912);
    l11 = Words.get64(b, ((int) (l4 + 40L)) - 58912);
    l12 = Words.get64(b, ((int) (l4 + 32L)) - 58912);
    l20 = b[((int) (l4 + 16L)) - 58912] & 0xff;
    l21 = b[((int) (l4 + 8L)) - 58912] & 0xff;
    l13 = Words.get64(b, ((int) l3) - 58904);
    l0 = Words.get64(b, ((int) l0) - 58910);
    l22 = b[((int) l4) - 58912] & 0xff;
    l14 = Words.get64(b, ((int) l3) - 58912);
    Words.put64(b, ((int) l5) - 58784, 0L);
    Words.put64(b, ((int) l5) - 58792, 0L);
    Words.put64(b, ((int) l5) - 58800, 0L);
    Words.put64(b, ((int) l5) - 58808, 0L);
    Words.put64(b, ((int) l5) - 58816, 0L);
    Words.put64(b, ((int) l5) - 58824, 0L);
    L4: {
     if (l22 != 0) { break L4; }
     l23 = 0;
     break L1;
    }
    l15 = l4 + 106L;
    l16 = l4 + 72L;
    l4 = l4 + 18L;
    l24 = (int) (l0 >>> 32L);
    l22 = (int) (l0 >>> 24L);
    L5: {
     final int x34 = f264_1(m, l0, l1, l2, l3, l4, l5, l6, l7, l8, l9, l10, l11, l12, l13, l14, l15, l16, l17, l18, l19, l20, l21, l22, l23, l24);
     l0 = m.kept[0];
     l3 = m.kept[1];
     l4 = m.kept[2];
     l6 = m.kept[3];
     l7 = m.kept[4];
     l11 = m.kept[5];
     l12 = m.kept[6];
     l13 = m.kept[7];
     l15 = m.kept[8];
     l16 = m.kept[9];
     l17 = (int) m.kept[10];
     l18 = (int) m.kept[11];
     l19 = (int) m.kept[12];
     l20 = (int) m.kept[13];
     l21 = (int) m.kept[14];
     l22 = (int) m.kept[15];
     l23 = (int) m.kept[16];
     switch (x34) {
     case 1: break L5;
     case 2: break L1;
     case 3: break L2;
     }
     Words.put64(b, ((int) l5) - 58602, Words.get64(b, ((int) l4) - 58906));
     Words.put64(b, ((int) l5) - 58608, Words.get64(b, ((int) l4) - 58912));
     Words.put64(b, ((int) l5) - 58536, Words.get64(b, ((int) l16) - 58904));
     Words.put64(b, ((int) l5) - 58544, Words.get64(b, ((int) l16) - 58912));
     Words.put64(b, ((int) l5) - 58770, Words.get64(b, ((int) l15) - 58906));
     Words.put64(b, ((int) l5) - 58776, Words.get64(b, ((int) l15) - 58912));
     l23 = 0;
     m.fill((int) (l5 + 448L), 0, (int) 112L);
     Core2.f79(m, l5 + 448L, l12, l11, l7, l6);
     if ((b[((int) l5) - 58464] & 0xff) != 1) { break L1; }
     L35: {
      if ((l22 & 1) != 0) { break L35; }
      b[((int) l5) - 58751] = (byte) l17;
      b[((int) l5) - 58752] = (byte) l20;
      Words.put64(b, ((int) l5) - 58750, Words.get64(b, ((int) l5) - 58608));
      Words.put64(b, ((int) l5) - 58744, Words.get64(b, ((int) l5) - 58602));
      Words.put64(b, ((int) l5) - 58704, l8);
      Words.put64(b, ((int) l5) - 58712, l9);
      Words.put64(b, ((int) l5) - 58720, l10);
      Words.put64(b, ((int) l5) - 58728, l11);
      Words.put64(b, ((int) l5) - 58736, l12);
      Words.put64(b, ((int) l5) - 58696, Words.get64(b, ((int) l5) - 58544));
      Words.put64(b, ((int) l5) - 58688, Words.get64(b, ((int) l5) - 58536));
      b[((int) l5) - 58663] = (byte) l18;
      b[((int) l5) - 58664] = (byte) l19;
      Words.put64(b, ((int) l5) - 58672, l6);
      Words.put64(b, ((int) l5) - 58680, l7);
      Words.put64(b, ((int) l5) - 58656, Words.get64(b, ((int) l5) - 58770));
      Words.put64(b, ((int) l5) - 58662, Words.get64(b, ((int) l5) - 58776));
      if (Core4.f125(m, l5 + 160L) != 0) { break L1; }
     }
     L36: {
      if (f269(m, l12, l11, l7, l6) == 0) { break L36; }
      if (f270(m, l24, l12, l11, l7, l6) == 0) { break L1; }
     }
     Words.put64(b, ((int) l5) - 58408, 0L);
     Words.put64(b, ((int) l5) - 58416, 0L);
     Words.put64(b, ((int) l5) - 58424, 0L);
     Words.put64(b, ((int) l5) - 58432, 0L);
     Words.put64(b, ((int) l5) - 58440, 0L);
     Words.put64(b, ((int) l5) - 58448, 0L);
     Words.put64(b, ((int) l5) - 58456, 0L);
     Words.put64(b, ((int) l5) - 58464, 0L);
     Core3.f80(m, l5 + 448L, l7, l6, 1);
     L37: {
      L38: {
       if ((b[((int) l5) - 58464] & 0xff) != 0) { break L38; }
       if (((b[((int) l5) - 58416] & 0xff) & 255) != 2) { break L38; }
       Words.put64(b, ((int) l5) - 58408, 0L);
       Words.put64(b, ((int) l5) - 58416, 0L);
       Words.put64(b, ((int) l5) - 58424, 0L);
       Words.put64(b, ((int) l5) - 58432, 0L);
       Words.put64(b, ((int) l5) - 58440, 0L);
       Words.put64(b, ((int) l5) - 58448, 0L);
       Words.put64(b, ((int) l5) - 58456, 0L);
       Words.put64(b, ((int) l5) - 58464, 0L);
       Core3.f80(m, l5 + 448L, l12, l11, 1);
       l4 = 1L;
       l3 = 77254L;
       if ((b[((int) l5) - 58464] & 0xff) != 0) { break L37; }
       if (((b[((int) l5) - 58416] & 0xff) & 255) != 2) { break L37; }
      }
      Core3.f81(m, l5 + 72L, l12, l11, l7, l6);
      l4 = Words.get64(b, ((int) l5) - 58832);
      l3 = Words.get64(b, ((int) l5) - 58840);
     }
     if ((f271(m, l24, l12, l11, l3, l4) & 1) == 0) { break L1; }
     l4 = 0L;
     Words.put64(b, ((int) l5) - 58408, 0L);
     Words.put64(b, ((int) l5) - 58416, 0L);
     Words.put64(b, ((int) l5) - 58424, 0L);
     Words.put64(b, ((int) l5) - 58432, 0L);
     Words.put64(b, ((int) l5) - 58440, 0L);
     Words.put64(b, ((int) l5) - 58448, 0L);
     Words.put64(b, ((int) l5) - 58456, 0L);
     Words.put64(b, ((int) l5) - 58464, 0L);
     Core3.f80(m, l5 + 448L, l12, l11, 1);
     l3 = 83372L;
     L39: {
      if ((b[((int) l5) - 58464] & 0xff) != 0) { break L39; }
      if (((b[((int) l5) - 58416] & 0xff) & 255) != 2) { break L39; }
      Words.put64(b, ((int) l5) - 58408, 0L);
      Words.put64(b, ((int) l5) - 58416, 0L);
      Words.put64(b, ((int) l5) - 58424, 0L);
      Words.put64(b, ((int) l5) - 58432, 0L);
      Words.put64(b, ((int) l5) - 58440, 0L);
      Words.put64(b, ((int) l5) - 58448, 0L);
      Words.put64(b, ((int) l5) - 58456, 0L);
      Words.put64(b, ((int) l5) - 58464, 0L);
      Core3.f80(m, l5 + 448L, l7, l6, 1);
      l3 = ((l22 = ((((b[((int) l5) - 58464] & 0xff) & 255) != 0) | (((b[((int) l5) - 58416] & 0xff) & 255) != 2)) ? 1 : 0) != 0) ? 77254L : 83372L;
      l4 = l22 & 0xffffffffL;
     }
     l23 = f271(m, l24, l7, l6, l3, l4);
     break L1;
    }
    Words.put64(b, ((int) l5) - 58816, l13);
    Words.put64(b, ((int) l5) - 58824, l14);
    Words.put64(b, ((int) l5) - 58808, Words.get64(b, ((int) (l4 = l3 + 16L)) - 58912));
    Words.put64(b, ((int) l5) - 58800, Words.get64(b, ((int) l4) - 58904));
    Words.put64(b, ((int) l5) - 58792, Words.get64(b, ((int) l4) - 58896));
    Words.put64(b, ((int) l5) - 58784, Words.get64(b, ((int) l4) - 58888));
    l23 = f268(m, l0, l5 + 88L);
    break L1;
   }
   throw State.trap();
  }
  l23 = 1;
  if (l6 == 0L) { break L1; }
  L40: while (true) {
   l22 = (l21 = (int) b[((int) l7) - 58912]) & 255;
   l4 = 1L;
   L41: {
    if (l21 > -1) { break L41; }
    l20 = (b[((int) l7) - 58911] & 0xff) & 63;
    L42: {
     if (l21 + Integer.MIN_VALUE > 2147483615) { break L42; }
     l22 = ((l22 << 6) & 1984) | l20;
     l4 = 2L;
     break L41;
    }
    l17 = (b[((int) l7) - 58910] & 0xff) & 63;
    L43: {
     if (l21 + Integer.MIN_VALUE > 2147483631) { break L43; }
     l22 = ((l20 << 6) | ((l22 << 12) & 61440)) | l17;
     l4 = 3L;
     break L41;
    }
    l22 = ((l17 << 6) | ((l20 << 12) | ((l22 << 18) & 1835008))) | ((b[((int) l7) - 58909] & 0xff) & 63);
    l4 = 4L;
   }
   l6 = l6 - l4;
   L44: {
    L45: {
     L46: {
      L47: {
       L48: {
        L49: {
         if (l22 > 20107) { break L49; }
         if ((l21 = l22 + -19968) + Integer.MIN_VALUE <= -2147483612) { break L48; }
         break L46;
        }
        L50: {
         if (l22 > 22234) { break L50; }
         if ((l21 = l22 + -20841) + Integer.MIN_VALUE > -2147483644) { break L47; }
         if (((1 << l21) & 21) == 0) { break L47; }
         break L45;
        }
        if (l22 == 38646) { break L45; }
        if (l22 != 22235) { break L44; }
        break L45;
       }
       if (((1L << (l21 & 0xffffffffL)) & 68719477257L) == 0L) { break L46; }
       break L45;
      }
      switch (l22 + -20108) {
      case 0: case 8: break L45;
      default: break L44;
      }
     }
     if (l22 == 12295) { break L45; }
     if (l22 != 20061) { break L44; }
    }
    Core2.f63(m, l5 + 24L, l22);
   }
   l7 = l7 + l4;
   if (l6 != 0L) { continue L40; }
   break L40;
  }
 }
 m.g0 = l5 + 560L;
 return l23 & 1;
}

static int f265(State m, long l0, long l1, long l2, long l3, long l4, long l5) {
 final byte[] b = m.bytes;
 long l6 = 0;
 int l7 = 0;
 int l8 = 0;
 int l9 = 0;
 int l10 = 0;
 int l11 = 0;
 int l12 = 0;
 m.g0 = l6 = m.g0 - 96L;
 L1: {
  if ((l6 = l6) < 16L) { break L1; }
  l7 = b[((int) l3) - 58911] & 0xff;
  l8 = b[((int) l3) - 58912] & 0xff;
  l9 = b[((int) l0) - 58907] & 0xff;
  l10 = b[((int) l0) - 58910] & 0xff;
  l11 = b[((int) l0) - 58911] & 0xff;
  l12 = 0;
  Words.put32(b, ((int) l6) - 58864, 0);
  Words.put64(b, ((int) l6) - 58872, 0L);
  Words.put32(b, ((int) l6) - 58880, Words.get32(b, ((int) (l0 = l3 + 2L)) - 58912));
  Words.put16(b, ((int) l6) - 58876, (short) (Words.get16(b, ((int) l0) - 58908) & 0xffff));
  Core4.f120(m, l6 + 40L, l7, l6 + 32L);
  L2: {
   if ((b[((int) l6) - 58872] & 0xff) != 1) { break L2; }
   L3: {
    if ((l10 & 1) != 0) { break L3; }
    b[((int) l6) - 58903] = (byte) l7;
    b[((int) l6) - 58904] = (byte) l8;
    Words.put32(b, ((int) l6) - 58902, Words.get32(b, ((int) l0) - 58912));
    Words.put16(b, ((int) l6) - 58898, (short) (Words.get16(b, ((int) l0) - 58908) & 0xffff));
    Words.put64(b, ((int) l6) - 58896, Words.get64(b, ((int) (l3 = l3 + 8L)) - 58912));
    Words.put64(b, ((int) l6) - 58888, Words.get64(b, ((int) l3) - 58904));
    if (Core4.f121(m, l1, l2, l6 + 8L, l4, l5) != 0) { break L2; }
   }
   l12 = 1;
   if ((l9 & 1) != 0) { break L2; }
   l10 = 1;
   if ((l11 & 1) != 0) { break L2; }
   Words.put64(b, ((int) l6) - 58832, 0L);
   Words.put64(b, ((int) l6) - 58840, 0L);
   Words.put64(b, ((int) l6) - 58848, 0L);
   Words.put64(b, ((int) l6) - 58856, 0L);
   Core4.f131(m, l6 + 56L, l4, l5);
   L4: {
    if ((l7 & 254) != 26) { break L4; }
    l3 = Words.get64(b, ((int) l6) - 58848);
    l0 = Words.get64(b, ((int) l6) - 58856);
    l12 = 0;
    Words.put32(b, ((int) l6) - 58820, 0);
    L5: {
     L6: {
      L7: {
       L8: {
        if ((l5 = l3 + -1L) + Long.MIN_VALUE > -9223372036854775806L) { break L8; }
        L9: {
         L10: {
          switch ((int) l5) {
          case 1: break L8;
          case 2: break L10;
          default: break L9;
          }
         }
         if (Words.get32(b, State.far((int) (l5 = ((((l7 = (((b[((int) l0) - 58911] & 0xff) << 8) | (l12 = b[((int) l0) - 58912] & 0xff)) | ((b[((int) l0) - 58910] & 0xff) << 16)) & 0xffffffffL) * 953497L) >>> 22L) & 1016L), 66852)) != l7) { break L7; }
         if (((b[((int) (l5 + 66856L)) - 58912] & 0xff) & 255) == 2) { break L7; }
         l12 = 1;
         break L5;
        }
        l12 = ((((b[((int) l0) - 58912] & 0xff) + -58) & 255) + Integer.MIN_VALUE < -2147483402) ? 1 : 0;
        break L5;
       }
       if (l3 + Long.MIN_VALUE > -9223372036854775804L) { break L5; }
       if (l3 == 0L) { break L6; }
       l12 = b[((int) l0) - 58912] & 0xff;
      }
      if (((int) (byte) l12) <= -1) { break L6; }
      l12 = 0;
      break L5;
     }
     Core3.f113(m, l6 + 92L, l0, l3);
     l12 = (((b[((int) l6) - 58820] & 0xff) == 1) ? 1 : 0) & (b[((int) l6) - 58817] & 0xff);
    }
    l10 = l12 ^ 1;
   }
   l12 = l10;
  }
  m.g0 = l6 + 96L;
  final int t11 = l12;
  return t11;
 }
 throw State.trap();
}

static int f266(State m, long l0, long l1, long l2, long l3, long l4) {
 final byte[] b = m.bytes;
 long l5 = 0;
 long l6 = 0;
 long l7 = 0;
 int l8 = 0;
 int l9 = 0;
 int l10 = 0;
 m.g0 = l5 = m.g0 - 288L;
 L1: {
  if ((l5 = l5) < 16L) { break L1; }
  l6 = Words.get64(b, ((int) l2) - 58896);
  l7 = Words.get64(b, ((int) l2) - 58904);
  l8 = b[((int) l2) - 58911] & 0xff;
  l9 = b[((int) l2) - 58912] & 0xff;
  l10 = 0;
  Words.put32(b, ((int) l5) - 58760, 0);
  Words.put64(b, ((int) l5) - 58768, 0L);
  Words.put32(b, ((int) l5) - 58776, Words.get32(b, ((int) l2) - 58910));
  Words.put16(b, ((int) l5) - 58772, (short) (Words.get16(b, ((int) l2) - 58906) & 0xffff));
  Core4.f120(m, l5 + 144L, l8, l5 + 136L);
  L2: {
   if ((b[((int) l5) - 58768] & 0xff) != 1) { break L2; }
   l2 = Words.get64(b, ((int) l5) - 58764);
   L3: {
    L4: {
     L5: {
      switch ((int) (b[((int) l5) - 58766] & 0xffL)) {
      case 1: case 2: case 3: case 5: case 7: case 8: break L2;
      case 4: break L4;
      case 6: break L3;
      default: break L5;
      }
     }
     if (f272(m, l7, l6) != 0) { break L2; }
     if ((l2 & 71777214277878015L) != 281479271677953L) { break L2; }
     if (((((int) (l4 = l2 >>> 16L)) + -10000) & 65535) + Integer.MIN_VALUE < -2147427112) { break L2; }
     Words.put64(b, ((int) l5) - 58632, 0L);
     Words.put64(b, ((int) l5) - 58639, 0L);
     Words.put64(b, ((int) l5) - 58648, 0L);
     Words.put64(b, ((int) l5) - 58656, 1L);
     Words.put64(b, ((int) l5) - 58664, 0L);
     b[((int) l5) - 58640] = (byte) 0;
     Words.put64(b, ((int) l5) - 58672, l4 & 65535L);
     m.fill((int) (l5 + 160L), 0, (int) 80L);
     Core2.f52(m, l5 + 32L, l5 + 160L, l5 + 240L);
     Words.put64(b, ((int) l5) - 58632, 0L);
     Words.put64(b, ((int) l5) - 58639, 0L);
     Words.put64(b, ((int) l5) - 58648, 0L);
     Words.put64(b, ((int) l5) - 58656, 1L);
     Words.put64(b, ((int) l5) - 58664, 0L);
     Words.put64(b, ((int) l5) - 58672, (l2 >>> 40L) & 255L);
     b[((int) l5) - 58640] = (byte) 0;
     m.fill((int) (l5 + 160L), 0, (int) 80L);
     Core2.f52(m, l5 + 16L, l5 + 160L, l5 + 240L);
     Words.put64(b, ((int) l5) - 58632, 0L);
     Words.put64(b, ((int) l5) - 58639, 0L);
     Words.put64(b, ((int) l5) - 58648, 0L);
     Words.put64(b, ((int) l5) - 58656, 1L);
     Words.put64(b, ((int) l5) - 58664, 0L);
     Words.put64(b, ((int) l5) - 58672, l2 >>> 56L);
     b[((int) l5) - 58640] = (byte) 0;
     m.fill((int) (l5 + 160L), 0, (int) 80L);
     Core2.f52(m, l5, l5 + 160L, l5 + 240L);
     L6: {
      if (Core4.f130(m, l7, l6) != 0) { break L6; }
      Core4.f134(m, l5 + 160L, 21, l7, l6);
     }
     l10 = 1;
     break L2;
    }
    b[((int) l5) - 58755] = (byte) (b[((int) l5) - 58765] & 0xff);
    Words.put16(b, ((int) l5) - 58754, (short) l2);
    if (f273(m, l9, l0, l1, l3, l4, l7, l6) != 0) { break L2; }
    if (f274(m, l7, l6) != 0) { break L2; }
    Core4.f122(m, l5 + 96L, l9, l3, l4, l5 + 157L);
    if ((b[((int) l5) - 58816] & 0xff) != 1) { break L2; }
    l10 = b[((int) l5) - 58815] & 0xff;
    L7: {
     if ((l9 & 255) != 2) { break L7; }
     Core4.f134(m, l5 + 160L, 22, l3, l4);
    }
    l4 = l2 >>> 8L;
    Words.put64(b, ((int) l5) - 58632, 0L);
    Words.put64(b, ((int) l5) - 58639, 0L);
    Words.put64(b, ((int) l5) - 58648, 0L);
    Words.put64(b, ((int) l5) - 58656, 1L);
    Words.put64(b, ((int) l5) - 58664, 0L);
    b[((int) l5) - 58640] = (byte) 0;
    Words.put64(b, ((int) l5) - 58672, (l10 & 0xffffffffL) & 255L);
    m.fill((int) (l5 + 160L), 0, (int) 80L);
    Core2.f52(m, l5 + 80L, l5 + 160L, l5 + 240L);
    Words.put64(b, ((int) l5) - 58632, 0L);
    Words.put64(b, ((int) l5) - 58639, 0L);
    Words.put64(b, ((int) l5) - 58648, 0L);
    Words.put64(b, ((int) l5) - 58656, 1L);
    Words.put64(b, ((int) l5) - 58664, 0L);
    Words.put64(b, ((int) l5) - 58672, l2 & 255L);
    b[((int) l5) - 58640] = (byte) 0;
    m.fill((int) (l5 + 160L), 0, (int) 80L);
    Core2.f52(m, l5 + 64L, l5 + 160L, l5 + 240L);
    L8: {
     if (((1 << l8) & -1064961) != 0) { break L8; }
     Words.put64(b, ((int) l5) - 58632, 0L);
     Words.put64(b, ((int) l5) - 58639, 0L);
     Words.put64(b, ((int) l5) - 58648, 0L);
     Words.put64(b, ((int) l5) - 58656, 1L);
     Words.put64(b, ((int) l5) - 58664, 0L);
     b[((int) l5) - 58640] = (byte) 0;
     Words.put64(b, ((int) l5) - 58672, l4 & 255L);
     m.fill((int) (l5 + 160L), 0, (int) 80L);
     Core2.f52(m, l5 + 48L, l5 + 160L, l5 + 240L);
    }
    L9: {
     if (Core4.f130(m, l7, l6) != 0) { break L9; }
     Core4.f134(m, l5 + 160L, 21, l7, l6);
    }
    l10 = 1;
    break L2;
   }
   Words.put64(b, ((int) l5) - 58632, 0L);
   Words.put64(b, ((int) l5) - 58639, 0L);
   Words.put64(b, ((int) l5) - 58648, 0L);
   Words.put64(b, ((int) l5) - 58664, 0L);
   l10 = 1;
   b[((int) l5) - 58640] = (byte) 1;
   Words.put64(b, ((int) l5) - 58656, 10L);
   Words.put64(b, ((int) l5) - 58672, ((l2 & 65535L) * 10L) + 5L);
   m.fill((int) (l5 + 160L), 0, (int) 80L);
   Core2.f52(m, l5 + 120L, l5 + 160L, l5 + 240L);
   f275(m, l5 + 104L, l3, l4);
   l2 = Words.get64(b, ((int) l5) - 58800);
   l6 = Words.get64(b, ((int) l5) - 58808);
   Words.put64(b, ((int) l5) - 58656, 0L);
   Words.put64(b, ((int) l5) - 58664, 0L);
   Words.put64(b, ((int) l5) - 58672, 0L);
   if (l8 != 26) { break L2; }
   Core4.f138(m, l5 + 240L, 83888L, 2L, 83848L, 1L, l6, l2);
   if ((b[((int) l5) - 58672] & 0xff) != 1) { break L2; }
   Core5.f160(m, l5 + 160L, Words.get64(b, ((int) l5) - 58664), Words.get64(b, ((int) l5) - 58656));
  }
  m.g0 = l5 + 288L;
  final int t10 = l10;
  return t10;
 }
 throw State.trap();
}

static int f267(State m, int l0, long l1, long l2) {
 final byte[] b = m.bytes;
 long l3 = 0;
 long l4 = 0;
 int l5 = 0;
 int l6 = 0;
 int l7 = 0;
 int l8 = 0;
 m.g0 = l3 = m.g0 - 48L;
 L1: {
  L2: {
   L3: {
    if ((l3 = l3) < 16L) { break L3; }
    Words.put64(b, ((int) l3) - 58872, 0L);
    Words.put64(b, ((int) l3) - 58880, 0L);
    Words.put64(b, ((int) l3) - 58888, 0L);
    Core7.f242(m, l3 + 24L, l1, l2);
    L4: {
     if ((b[((int) l3) - 58888] & 0xff) != 1) { break L4; }
     f276(m, l3, l0, Words.get64(b, ((int) l3) - 58880), Words.get64(b, ((int) l3) - 58872));
     l0 = b[((int) l3) - 58911] & 0xff;
     break L1;
    }
    if (l2 == 0L) { break L2; }
    l6 = (l5 = (int) b[((int) l1) - 58912]) & 255;
    l4 = 1L;
    L5: {
     if (l5 > -1) { break L5; }
     l7 = (b[((int) l1) - 58911] & 0xff) & 63;
     L6: {
      if (l5 + Integer.MIN_VALUE > 2147483615) { break L6; }
      l6 = ((l6 << 6) & 1984) | l7;
      l4 = 2L;
      break L5;
     }
     l8 = (b[((int) l1) - 58910] & 0xff) & 63;
     L7: {
      if (l5 + Integer.MIN_VALUE > 2147483631) { break L7; }
      l6 = ((l7 << 6) | ((l6 << 12) & 61440)) | l8;
      l4 = 3L;
      break L5;
     }
     l6 = ((l8 << 6) | ((l7 << 12) | ((l6 << 18) & 1835008))) | ((b[((int) l1) - 58909] & 0xff) & 63);
     l4 = 4L;
    }
    L8: {
     L9: {
      if (l6 > 35999) { break L9; }
      if (l6 == 45) { break L8; }
      if (l6 == 8722) { break L8; }
      break L2;
     }
     if (l6 == 36000) { break L8; }
     if (l6 == 65293) { break L8; }
     if (l6 != 36127) { break L2; }
    }
    f276(m, l3 + 16L, l0, l1 + l4, l2 - l4);
    l0 = b[((int) l3) - 58895] & 0xff;
    break L1;
   }
   throw State.trap();
  }
  f276(m, l3 + 8L, l0, l1, l2);
  l0 = b[((int) l3) - 58903] & 0xff;
 }
 m.g0 = l3 + 48L;
 return l0;
}

static int f268(State m, long l0, long l1) {
 final byte[] b = m.bytes;
 long l2 = 0;
 long l3 = 0;
 long l4 = 0;
 long l5 = 0;
 int l6 = 0;
 int l7 = 0;
 int l8 = 0;
 int l9 = 0;
 int l10 = 0;
 int l11 = 0;
 m.g0 = l2 = m.g0 - 224L;
 L1: {
  if ((l2 = l2) < 16L) { break L1; }
  l3 = Words.get64(b, ((int) l1) - 58896);
  Words.put64(b, ((int) l2) - 58848, l4 = Words.get64(b, ((int) l1) - 58888));
  Words.put64(b, ((int) l2) - 58856, l3);
  Words.put64(b, ((int) l2) - 58872, Words.get64(b, ((int) l1) - 58912));
  Words.put64(b, ((int) l2) - 58864, Words.get64(b, ((int) l1) - 58904));
  Words.put64(b, ((int) l2) - 58840, Words.get64(b, ((int) l1) - 58880));
  Words.put64(b, ((int) l2) - 58832, Words.get64(b, ((int) l1) - 58872));
  b[((int) l2) - 58818] = (byte) ((l6 = (int) l0) >>> 24);
  Words.put16(b, ((int) l2) - 58820, (short) (l6 >>> 8));
  l7 = 0;
  L2: {
   if (Core7.f239(m, l6, l2 + 92L, l2 + 40L) == 0) { break L2; }
   L3: {
    L4: {
     if (Core7.f240(m, l3, l4) != 0) { break L4; }
     l8 = Core7.f241(m, l3, l4);
     L5: {
      if ((l0 & 1095216660480L) != 0L) { break L5; }
      if (l8 != 0) { break L2; }
      l1 = l3;
      l5 = l4;
      L6: {
       L7: while (true) {
        if (l5 == 0L) { break L6; }
        l8 = (l9 = (int) b[((int) l1) - 58912]) & 255;
        l0 = 1L;
        L8: {
         if (l9 > -1) { break L8; }
         l10 = (b[((int) l1) - 58911] & 0xff) & 63;
         L9: {
          if (l9 + Integer.MIN_VALUE > 2147483615) { break L9; }
          l8 = ((l8 << 6) & 1984) | l10;
          l0 = 2L;
          break L8;
         }
         l11 = (b[((int) l1) - 58910] & 0xff) & 63;
         L10: {
          if (l9 + Integer.MIN_VALUE > 2147483631) { break L10; }
          l8 = ((l10 << 6) | ((l8 << 12) & 61440)) | l11;
          l0 = 3L;
          break L8;
         }
         l8 = ((l11 << 6) | ((l10 << 12) | ((l8 << 18) & 1835008))) | ((b[((int) l1) - 58909] & 0xff) & 63);
         l0 = 4L;
        }
        l5 = l5 - l0;
        l1 = l1 + l0;
        if (l8 != 21448) { continue L7; }
        break L2;
       }
      }
      l7 = f267(m, l6, l3, l4);
      break L2;
     }
     L11: {
      if (l8 == 0) { break L11; }
      l1 = l3;
      l5 = l4;
      L12: while (true) {
       if (l5 == 0L) { break L2; }
       l8 = (l9 = (int) b[((int) l1) - 58912]) & 255;
       l0 = 1L;
       L13: {
        if (l9 > -1) { break L13; }
        l10 = (b[((int) l1) - 58911] & 0xff) & 63;
        L14: {
         if (l9 + Integer.MIN_VALUE > 2147483615) { break L14; }
         l8 = ((l8 << 6) & 1984) | l10;
         l0 = 2L;
         break L13;
        }
        l11 = (b[((int) l1) - 58910] & 0xff) & 63;
        L15: {
         if (l9 + Integer.MIN_VALUE > 2147483631) { break L15; }
         l8 = ((l10 << 6) | ((l8 << 12) & 61440)) | l11;
         l0 = 3L;
         break L13;
        }
        l8 = ((l11 << 6) | ((l10 << 12) | ((l8 << 18) & 1835008))) | ((b[((int) l1) - 58909] & 0xff) & 63);
        l0 = 4L;
       }
       Core2.f61(m, l2 + 32L, l8);
       L16: {
        if ((b[((int) l2) - 58880] & 0xff) != 1) { break L16; }
        if (((b[((int) l2) - 58879] & 0xff) & 255) != 0) { break L11; }
       }
       if (l8 == 38646) { break L11; }
       l1 = l1 + l0;
       l5 = l5 - l0;
       if (l8 != 12295) { continue L12; }
       break L12;
      }
     }
     Words.put64(b, ((int) l2) - 58712, 0L);
     Words.put64(b, ((int) l2) - 58720, 0L);
     Words.put64(b, ((int) l2) - 58728, 0L);
     Words.put64(b, ((int) l2) - 58736, 0L);
     Words.put64(b, ((int) l2) - 58744, 0L);
     Words.put64(b, ((int) l2) - 58752, 0L);
     Words.put64(b, ((int) l2) - 58760, 0L);
     Words.put64(b, ((int) l2) - 58768, 0L);
     Core3.f80(m, l2 + 144L, l3, l4, l6);
     Words.put64(b, ((int) l2) - 58816, Words.get64(b, ((int) l2) - 58752));
     Words.put64(b, ((int) l2) - 58808, Words.get64(b, ((int) l2) - 58744));
     Words.put64(b, ((int) l2) - 58800, Words.get64(b, ((int) l2) - 58736));
     Words.put64(b, ((int) l2) - 58792, Words.get64(b, ((int) l2) - 58728));
     Words.put64(b, ((int) l2) - 58784, Words.get64(b, ((int) l2) - 58720));
     Words.put64(b, ((int) l2) - 58776, Words.get64(b, ((int) l2) - 58712));
     l7 = 0;
     if ((b[((int) l2) - 58768] & 0xff) != 0) { break L2; }
     m.fill((int) (l2 + 144L), 0, (int) 80L);
     Core2.f52(m, l2 + 16L, l2 + 144L, l2 + 96L);
     break L3;
    }
    if ((l0 & 1099511627776L) == 0L) { break L2; }
    if (l4 == 0L) { break L3; }
    l7 = 0;
    L17: while (true) {
     l6 = (l8 = (int) b[((int) l3) - 58912]) & 255;
     l1 = 1L;
     L18: {
      if (l8 > -1) { break L18; }
      l9 = (b[((int) l3) - 58911] & 0xff) & 63;
      L19: {
       if (l8 + Integer.MIN_VALUE > 2147483615) { break L19; }
       l6 = ((l6 << 6) & 1984) | l9;
       l1 = 2L;
       break L18;
      }
      l10 = (b[((int) l3) - 58910] & 0xff) & 63;
      L20: {
       if (l8 + Integer.MIN_VALUE > 2147483631) { break L20; }
       l6 = ((l9 << 6) | ((l6 << 12) & 61440)) | l10;
       l1 = 3L;
       break L18;
      }
      l6 = ((l10 << 6) | ((l9 << 12) | ((l6 << 18) & 1835008))) | ((b[((int) l3) - 58909] & 0xff) & 63);
      l1 = 4L;
     }
     l4 = l4 - l1;
     l3 = l3 + l1;
     l8 = 0;
     L21: {
      if ((l7 & 1) != 0) { break L21; }
      L22: {
       if (l6 == 65296) { break L22; }
       if (l6 != 48) { break L21; }
      }
      if (l4 == 0L) { break L21; }
      l8 = (l9 = (int) b[((int) l3) - 58912]) & 255;
      L23: {
       if (l9 > -1) { break L23; }
       l10 = (b[((int) l3) - 58911] & 0xff) & 63;
       L24: {
        if (l9 + Integer.MIN_VALUE > 2147483615) { break L24; }
        l8 = ((l8 << 6) & 1984) | l10;
        break L23;
       }
       l11 = (b[((int) l3) - 58910] & 0xff) & 63;
       L25: {
        if (l9 + Integer.MIN_VALUE > 2147483631) { break L25; }
        l8 = ((l10 << 6) | ((l8 << 12) & 61440)) | l11;
        break L23;
       }
       l8 = ((l11 << 6) | ((l10 << 12) | ((l8 << 18) & 1835008))) | ((b[((int) l3) - 58909] & 0xff) & 63);
      }
      l8 = (((l8 + -48) + Integer.MIN_VALUE < -2147483638) | ((l8 + -65296) + Integer.MIN_VALUE < -2147483638)) ? 1 : 0;
     }
     Core7.f244(m, l2, l8, l6);
     L26: {
      L27: {
       if (((l7 | l8) & 1) == 0) { break L27; }
       l7 = l7 & (l8 ^ 1);
       break L26;
      }
      l7 = (((l6 + -48) + Integer.MIN_VALUE < -2147483638) | ((l6 + -65296) + Integer.MIN_VALUE < -2147483638)) ? 1 : 0;
     }
     if (l4 != 0L) { continue L17; }
     break L17;
    }
   }
   l7 = 1;
  }
  m.g0 = l2 + 224L;
  final int t28 = l7;
  return t28;
 }
 throw State.trap();
}

static int f269(State m, long l0, long l1, long l2, long l3) {
 final byte[] b = m.bytes;
 int l4 = 0;
 int l5 = 0;
 int l6 = 0;
 int l7 = 0;
 int l8 = 0;
 long l9 = 0;
 L1: {
  if (m.g0 < 16L) { break L1; }
  L2: while (true) {
   L3: {
    if (!(l1 == 0L)) { break L3; }
    return 0;
   }
   l5 = (l4 = (int) b[((int) l0) - 58912]) & 255;
   l9 = 1L;
   L4: {
    if (l4 > -1) { break L4; }
    l6 = (b[((int) l0) - 58911] & 0xff) & 63;
    L5: {
     if (l4 + Integer.MIN_VALUE > 2147483615) { break L5; }
     l5 = ((l5 << 6) & 1984) | l6;
     l9 = 2L;
     break L4;
    }
    l7 = (b[((int) l0) - 58910] & 0xff) & 63;
    L6: {
     if (l4 + Integer.MIN_VALUE > 2147483631) { break L6; }
     l5 = ((l6 << 6) | ((l5 << 12) & 61440)) | l7;
     l9 = 3L;
     break L4;
    }
    l5 = ((l7 << 6) | ((l6 << 12) | ((l5 << 18) & 1835008))) | ((b[((int) l0) - 58909] & 0xff) & 63);
    l9 = 4L;
   }
   L7: {
    if ((l5 + -48) + Integer.MIN_VALUE < -2147483638) { break L7; }
    l1 = l1 - l9;
    l0 = l0 + l9;
    if ((l5 + -65296) + Integer.MIN_VALUE > -2147483639) { continue L2; }
   }
   break L2;
  }
  L8: {
   L9: while (true) {
    l6 = (l3 != 0L) ? 1 : 0;
    if (l3 == 0L) { break L8; }
    l5 = (l4 = (int) b[((int) l2) - 58912]) & 255;
    l0 = 1L;
    L10: {
     if (l4 > -1) { break L10; }
     l7 = (b[((int) l2) - 58911] & 0xff) & 63;
     L11: {
      if (l4 + Integer.MIN_VALUE > 2147483615) { break L11; }
      l5 = ((l5 << 6) & 1984) | l7;
      l0 = 2L;
      break L10;
     }
     l8 = (b[((int) l2) - 58910] & 0xff) & 63;
     L12: {
      if (l4 + Integer.MIN_VALUE > 2147483631) { break L12; }
      l5 = ((l7 << 6) | ((l5 << 12) & 61440)) | l8;
      l0 = 3L;
      break L10;
     }
     l5 = ((l8 << 6) | ((l7 << 12) | ((l5 << 18) & 1835008))) | ((b[((int) l2) - 58909] & 0xff) & 63);
     l0 = 4L;
    }
    if ((l5 + -48) + Integer.MIN_VALUE < -2147483638) { break L8; }
    l3 = l3 - l0;
    l2 = l2 + l0;
    if ((l5 + -65296) + Integer.MIN_VALUE > -2147483639) { continue L9; }
    break L9;
   }
  }
  final int t13 = l6;
  return t13;
 }
 throw State.trap();
}

static int f270(State m, int l0, long l1, long l2, long l3, long l4) {
 final byte[] b = m.bytes;
 long l5 = 0;
 long l6 = 0;
 int l7 = 0;
 int l8 = 0;
 int l9 = 0;
 int l10 = 0;
 m.g0 = l5 = m.g0 - 16L;
 L1: {
  if ((l5 = l5) < 16L) { break L1; }
  L2: {
   L3: {
    if ((l0 & 255) != 0) { break L3; }
    l0 = 0;
    break L2;
   }
   L4: {
    L5: while (true) {
     if (l2 == 0L) { break L4; }
     l0 = (l7 = (int) b[((int) l1) - 58912]) & 255;
     l6 = 1L;
     L6: {
      if (l7 > -1) { break L6; }
      l8 = (b[((int) l1) - 58911] & 0xff) & 63;
      L7: {
       if (l7 + Integer.MIN_VALUE > 2147483615) { break L7; }
       l0 = ((l0 << 6) & 1984) | l8;
       l6 = 2L;
       break L6;
      }
      l9 = (b[((int) l1) - 58910] & 0xff) & 63;
      L8: {
       if (l7 + Integer.MIN_VALUE > 2147483631) { break L8; }
       l0 = ((l8 << 6) | ((l0 << 12) & 61440)) | l9;
       l6 = 3L;
       break L6;
      }
      l0 = ((l9 << 6) | ((l8 << 12) | ((l0 << 18) & 1835008))) | ((b[((int) l1) - 58909] & 0xff) & 63);
      l6 = 4L;
     }
     Core2.f61(m, l5 + 8L, l0);
     l2 = l2 - l6;
     l1 = l1 + l6;
     l0 = 1;
     if ((b[((int) l5) - 58904] & 0xff) != 1) { continue L5; }
     if (((b[((int) l5) - 58903] & 0xff) & 255) + Integer.MIN_VALUE <= -2147483647) { continue L5; }
     break L2;
    }
   }
   L9: while (true) {
    l0 = (l4 != 0L) ? 1 : 0;
    if (l4 == 0L) { break L2; }
    l7 = (l8 = (int) b[((int) l3) - 58912]) & 255;
    l1 = 1L;
    L10: {
     if (l8 > -1) { break L10; }
     l9 = (b[((int) l3) - 58911] & 0xff) & 63;
     L11: {
      if (l8 + Integer.MIN_VALUE > 2147483615) { break L11; }
      l7 = ((l7 << 6) & 1984) | l9;
      l1 = 2L;
      break L10;
     }
     l10 = (b[((int) l3) - 58910] & 0xff) & 63;
     L12: {
      if (l8 + Integer.MIN_VALUE > 2147483631) { break L12; }
      l7 = ((l9 << 6) | ((l7 << 12) & 61440)) | l10;
      l1 = 3L;
      break L10;
     }
     l7 = ((l10 << 6) | ((l9 << 12) | ((l7 << 18) & 1835008))) | ((b[((int) l3) - 58909] & 0xff) & 63);
     l1 = 4L;
    }
    Core2.f61(m, l5, l7);
    l4 = l4 - l1;
    l3 = l3 + l1;
    if ((b[((int) l5) - 58912] & 0xff) != 1) { continue L9; }
    if (((b[((int) l5) - 58911] & 0xff) & 255) + Integer.MIN_VALUE < -2147483646) { continue L9; }
    break L9;
   }
  }
  m.g0 = l5 + 16L;
  final int t13 = l0;
  return t13;
 }
 throw State.trap();
}

static int f271(State m, int l0, long l1, long l2, long l3, long l4) {
 final byte[] b = m.bytes;
 long l5 = 0;
 int l6 = 0;
 int l7 = 0;
 m.g0 = l5 = m.g0 - 240L;
 L1: {
  if ((l5 = l5) < 16L) { break L1; }
  l6 = 0;
  L2: {
   if (l2 + Long.MIN_VALUE > -9223372036854775760L) { break L2; }
   if (l4 + Long.MIN_VALUE > -9223372036854775760L) { break L2; }
   l6 = 0;
   m.fill((int) (l5 + 16L), 0, (int) 96L);
   Words.put64(b, ((int) l5) - 58744, 96L);
   Words.put64(b, ((int) l5) - 58752, l5 + 16L);
   Words.put64(b, ((int) l5) - 58736, 0L);
   Core2.f53(m, l5 + 160L, l1, l2);
   Core2.f53(m, l5 + 160L, l3, l4);
   final long t3 = Words.get64(b, ((int) l5) - 58752);
   final int t4 = l7 = (Words.get64(b, ((int) l5) - 58744) + Long.MIN_VALUE < (l2 = Words.get64(b, ((int) l5) - 58736)) + Long.MIN_VALUE) ? 1 : 0;
   l4 = t4 != 0 ? 83372L : t3;
   l2 = l7 != 0 ? 0L : l2;
   L5: {
    if ((l0 & 255) != 0) { break L5; }
    l6 = f267(m, 1, l4, l2);
    break L2;
   }
   Words.put64(b, ((int) l5) - 58696, 0L);
   Words.put64(b, ((int) l5) - 58704, 0L);
   Words.put64(b, ((int) l5) - 58712, 0L);
   Words.put64(b, ((int) l5) - 58720, 0L);
   Words.put64(b, ((int) l5) - 58728, 0L);
   Words.put64(b, ((int) l5) - 58736, 0L);
   Words.put64(b, ((int) l5) - 58744, 0L);
   Words.put64(b, ((int) l5) - 58752, 0L);
   Core3.f80(m, l5 + 160L, l4, l2, 1);
   Words.put64(b, ((int) l5) - 58800, Words.get64(b, ((int) l5) - 58736));
   Words.put64(b, ((int) l5) - 58792, Words.get64(b, ((int) l5) - 58728));
   Words.put64(b, ((int) l5) - 58784, Words.get64(b, ((int) l5) - 58720));
   Words.put64(b, ((int) l5) - 58776, Words.get64(b, ((int) l5) - 58712));
   Words.put64(b, ((int) l5) - 58768, Words.get64(b, ((int) l5) - 58704));
   Words.put64(b, ((int) l5) - 58760, Words.get64(b, ((int) l5) - 58696));
   if ((b[((int) l5) - 58752] & 0xff) != 0) { break L2; }
   m.fill((int) (l5 + 160L), 0, (int) 80L);
   Core2.f52(m, l5, l5 + 160L, l5 + 112L);
   l6 = 1;
  }
  m.g0 = l5 + 240L;
  final int t6 = l6;
  return t6;
 }
 throw State.trap();
}

static int f272(State m, long l0, long l1) {
 final byte[] b = m.bytes;
 long l2 = 0;
 long l3 = 0;
 long l4 = 0;
 int l5 = 0;
 int l6 = 0;
 int l7 = 0;
 int l8 = 0;
 int l9 = 0;
 m.g0 = l2 = m.g0 - 16L;
 L1: {
  if ((l3 = l2) < 16L) { break L1; }
  l5 = 0;
  L2: {
   if (l1 == 0L) { break L2; }
   l7 = (l6 = (int) b[((int) l0) - 58912]) & 255;
   l4 = 1L;
   L3: {
    if (l6 > -1) { break L3; }
    l8 = (b[((int) l0) - 58911] & 0xff) & 63;
    L4: {
     if (l6 + Integer.MIN_VALUE > 2147483615) { break L4; }
     l7 = ((l7 << 6) & 1984) | l8;
     l4 = 2L;
     break L3;
    }
    l9 = (b[((int) l0) - 58910] & 0xff) & 63;
    L5: {
     if (l6 + Integer.MIN_VALUE > 2147483631) { break L5; }
     l7 = ((l8 << 6) | ((l7 << 12) & 61440)) | l9;
     l4 = 3L;
     break L3;
    }
    l7 = ((l9 << 6) | ((l8 << 12) | ((l7 << 18) & 1835008))) | ((b[((int) l0) - 58909] & 0xff) & 63);
    l4 = 4L;
   }
   l2 = -68L;
   L6: {
    L7: while (true) {
     if ((l8 = Words.get32(b, ((int) (l2 + 99420L)) - 58912)) == l7) { break L6; }
     l6 = (l2 != 0L) ? 1 : 0;
     l2 = l2 + 4L;
     if (l6 != 0) { continue L7; }
     break L7;
    }
   }
   if (l8 != l7) { break L2; }
   if (Core4.f130(m, l2 = l0 + l4, l0 = l1 - l4) == 0) { break L2; }
   f275(m, l3, l2, l0);
   if (Words.get64(b, ((int) l3) - 58904) == 0L) { break L2; }
   l6 = (l7 = (int) b[((int) (l2 = Words.get64(b, ((int) l3) - 58912))) - 58912]) & 255;
   L8: {
    if (l7 > -1) { break L8; }
    l8 = (b[((int) l2) - 58911] & 0xff) & 63;
    L9: {
     if (l7 + Integer.MIN_VALUE > 2147483615) { break L9; }
     l6 = ((l6 << 6) & 1984) | l8;
     break L8;
    }
    l5 = (b[((int) l2) - 58910] & 0xff) & 63;
    L10: {
     L11: {
      if (l7 + Integer.MIN_VALUE > 2147483631) { break L11; }
      l6 = ((l8 << 6) | ((l6 << 12) & 61440)) | l5;
      break L10;
     }
     l6 = ((l5 << 6) | ((l8 << 12) | ((l6 << 18) & 1835008))) | ((b[((int) l2) - 58909] & 0xff) & 63);
    }
    l5 = 1;
    L12: {
     if (l6 > 26375) { break L12; }
     L13: {
      switch (l6 + -26085) {
      case 0: case 17: break L2;
      case 1: case 2: case 3: case 4: case 5: case 6: case 7: case 8: case 9: case 10: case 11: case 12: case 13: case 14: case 15: case 16: break L8;
      default: break L13;
      }
     }
     if (l6 == 21495) { break L2; }
     if (l6 != 26178) { break L8; }
     break L2;
    }
    L14: {
     if (l6 > 34398) { break L14; }
     if (l6 == 26376) { break L2; }
     if (l6 != 28857) { break L8; }
     break L2;
    }
    if (l6 == 34399) { break L2; }
    if (l6 == 40670) { break L2; }
   }
   l5 = ((l6 == 58) | (l6 == 65306)) ? 1 : 0;
  }
  m.g0 = l3 + 16L;
  final int t15 = l5;
  return t15;
 }
 throw State.trap();
}

static int f273(State m, int l0, long l1, long l2, long l3, long l4, long l5, long l6) {
 final byte[] b = m.bytes;
 long l7 = 0;
 int l8 = 0;
 int l9 = 0;
 int l10 = 0;
 L1: {
  L2: {
   L3: {
    L4: {
     if ((l7 = m.g0) < 16L) { break L4; }
     l8 = 0;
     if ((l0 & 255) != 1) { break L1; }
     L5: {
      if (l4 == 0L) { break L5; }
      if ((l8 = (int) b[((int) l3) - 58912]) > -1) { break L5; }
      if (l8 + Integer.MIN_VALUE < 2147483616) { break L5; }
      l0 = l8 & 255;
      l9 = (b[((int) l3) - 58911] & 0xff) & 63;
      l10 = (b[((int) l3) - 58910] & 0xff) & 63;
      L6: {
       L7: {
        if (l8 + Integer.MIN_VALUE > 2147483631) { break L7; }
        l0 = ((l9 << 6) | ((l0 << 12) & 61440)) | l10;
        break L6;
       }
       l0 = ((l10 << 6) | ((l9 << 12) | ((l0 << 18) & 1835008))) | ((b[((int) l3) - 58909] & 0xff) & 63);
      }
      l8 = 1;
      L8: {
       if (l0 > 26125) { break L8; }
       if (l0 == 20170) { break L1; }
       if (l0 != 24403) { break L5; }
       break L1;
      }
      if (l0 == 26126) { break L1; }
      if (l0 == 26152) { break L1; }
      if (l0 == 30070) { break L1; }
     }
     if (l2 == 0L) { break L2; }
     L9: {
      if ((l0 = (int) b[((int) ((l4 = l1 + l2) + -1L)) - 58912]) > -1) { break L9; }
      l3 = -2L;
      L10: {
       if ((b[((int) (l4 + -2L)) - 58912] & 0xff) + Integer.MIN_VALUE > -2147483457) { break L10; }
       l3 = ((b[((int) (l4 + -3L)) - 58912] & 0xff) + Integer.MIN_VALUE > -2147483457) ? -3L : -4L;
      }
      L11: {
       if ((l8 = (int) b[((int) (l3 = (l1 + l3) + l2)) - 58912]) > -1) { break L11; }
       if (l8 + Integer.MIN_VALUE < 2147483616) { break L11; }
       l0 = l8 & 255;
       l9 = (b[((int) l3) - 58911] & 0xff) & 63;
       l10 = (b[((int) l3) - 58910] & 0xff) & 63;
       L12: {
        L13: {
         if (l8 + Integer.MIN_VALUE > 2147483631) { break L13; }
         l0 = ((l9 << 6) | ((l0 << 12) & 61440)) | l10;
         break L12;
        }
        l0 = ((l10 << 6) | ((l9 << 12) | ((l0 << 18) & 1835008))) | ((b[((int) l3) - 58909] & 0xff) & 63);
       }
       l8 = 1;
       L14: {
        if (l0 > 27598) { break L14; }
        L15: {
         if (l0 > 24459) { break L15; }
         L16: {
          switch (l0 + -21516) {
          case 0: case 2: break L1;
          case 1: break L11;
          default: break L16;
          }
         }
         L17: {
          switch (l0 + -22812) {
          case 0: case 11: break L1;
          case 1: case 2: case 3: case 4: case 5: case 6: case 7: case 8: case 9: case 10: break L11;
          default: break L17;
          }
         }
         if (l0 != 21069) { break L11; }
         break L1;
        }
        if (l0 == 24460) { break L1; }
        if (l0 == 26089) { break L1; }
        if (l0 != 27425) { break L11; }
        break L1;
       }
       L18: {
        if (l0 > 36888) { break L18; }
        L19: {
         if (l0 > 32715) { break L19; }
         if (l0 == 27599) { break L1; }
         if (l0 != 28165) { break L11; }
         break L1;
        }
        if (l0 == 32716) { break L1; }
        if (l0 != 36825) { break L11; }
        break L1;
       }
       L20: {
        if (l0 > 38547) { break L20; }
        if (l0 == 36889) { break L1; }
        if (l0 != 37027) { break L11; }
        break L1;
       }
       if (l0 == 38548) { break L1; }
       if (l0 == 39318) { break L1; }
      }
      l3 = -2L;
      L21: {
       if ((b[((int) (l4 + -2L)) - 58912] & 0xff) + Integer.MIN_VALUE > -2147483457) { break L21; }
       l3 = ((b[((int) (l4 + -3L)) - 58912] & 0xff) + Integer.MIN_VALUE > -2147483457) ? -3L : -4L;
      }
      l0 = (l8 = (int) b[((int) (l2 = (l1 + l3) + l2)) - 58912]) & 255;
      if (l8 > -1) { break L9; }
      l9 = (b[((int) l2) - 58911] & 0xff) & 63;
      L22: {
       if (l8 + Integer.MIN_VALUE > 2147483615) { break L22; }
       l0 = ((l0 << 6) & 1984) | l9;
       break L9;
      }
      l10 = (b[((int) l2) - 58910] & 0xff) & 63;
      L23: {
       if (l8 + Integer.MIN_VALUE > 2147483631) { break L23; }
       l0 = ((l9 << 6) | ((l0 << 12) & 61440)) | l10;
       break L9;
      }
      l0 = ((l10 << 6) | ((l9 << 12) | ((l0 << 18) & 1835008))) | ((b[((int) l2) - 58909] & 0xff) & 63);
     }
     l8 = 1;
     if ((l0 + -48) + Integer.MIN_VALUE < -2147483638) { break L1; }
     if ((l0 + -65296) + Integer.MIN_VALUE < -2147483638) { break L1; }
     L24: {
      if (l0 > 20840) { break L24; }
      L25: {
       if (l0 > 20060) { break L25; }
       if ((l9 = l0 + -19968) + Integer.MIN_VALUE > -2147483612) { break L3; }
       if (((1L << (l9 & 0xffffffffL)) & 68719477257L) == 0L) { break L3; }
       break L1;
      }
      L26: {
       switch (l0 + -20108) {
       case 0: case 8: break L1;
       case 1: case 2: case 3: case 4: case 5: case 6: case 7: break L2;
       default: break L26;
       }
      }
      if (l0 != 20061) { break L2; }
      break L1;
     }
     L27: {
      if (l0 > 21312) { break L27; }
      if ((l0 = l0 + -20841) + Integer.MIN_VALUE > -2147483644) { break L2; }
      if (((1 << l0) & 21) == 0) { break L2; }
      break L1;
     }
     L28: {
      if (l0 > 30333) { break L28; }
      if (l0 == 21313) { break L1; }
      if (l0 != 22235) { break L2; }
      break L1;
     }
     if (l0 == 30334) { break L1; }
     if (l0 == 38646) { break L1; }
     break L2;
    }
    throw State.trap();
   }
   if (l0 == 12295) { break L1; }
  }
  l8 = f272(m, l5, l6);
 }
 m.g0 = l7;
 return l8;
}

static int f274(State m, long l0, long l1) {
 final byte[] b = m.bytes;
 long l2 = 0;
 int l3 = 0;
 int l4 = 0;
 int l5 = 0;
 int l6 = 0;
 L1: {
  if ((l2 = m.g0) < 16L) { break L1; }
  L2: {
   L3: {
    if (l1 == 0L) { break L3; }
    if ((l3 = (int) b[((int) l0) - 58912]) > -1) { break L3; }
    if (l3 + Integer.MIN_VALUE < 2147483616) { break L3; }
    l4 = l3 & 255;
    l5 = (b[((int) l0) - 58911] & 0xff) & 63;
    l6 = (b[((int) l0) - 58910] & 0xff) & 63;
    L4: {
     L5: {
      if (l3 + Integer.MIN_VALUE > 2147483631) { break L5; }
      l4 = ((l5 << 6) | ((l4 << 12) & 61440)) | l6;
      break L4;
     }
     l4 = ((l6 << 6) | ((l5 << 12) | ((l4 << 18) & 1835008))) | ((b[((int) l0) - 58909] & 0xff) & 63);
    }
    l3 = 1;
    L6: {
     if (l4 > 26722) { break L6; }
     L7: {
      if (l4 > 20728) { break L7; }
      if (l4 == 20215) { break L2; }
      if (l4 == 20313) { break L2; }
      if (l4 != 20358) { break L3; }
      break L2;
     }
     L8: {
      if (l4 > 25971) { break L8; }
      if (l4 == 20729) { break L2; }
      if (l4 != 22810) { break L3; }
      break L2;
     }
     if (l4 == 25972) { break L2; }
     if (l4 != 26469) { break L3; }
     break L2;
    }
    L9: {
     if (l4 > 35767) { break L9; }
     if (l4 == 26723) { break L2; }
     if (l4 == 27284) { break L2; }
     if (l4 != 35377) { break L3; }
     break L2;
    }
    L10: {
     if (l4 > 38046) { break L10; }
     if (l4 == 35768) { break L2; }
     if (l4 != 37912) { break L3; }
     break L2;
    }
    if (l4 == 38047) { break L2; }
    if (l4 == 39192) { break L2; }
   }
   l3 = Core5.f157(m, 99424L, 1L, 99428L, 1L, l0, l1);
  }
  m.g0 = l2;
  final int t11 = l3;
  return t11;
 }
 throw State.trap();
}

static void f275(State m, long l0, long l1, long l2) {
 final byte[] b = m.bytes;
 long l3 = 0;
 long l4 = 0;
 long l5 = 0;
 int l6 = 0;
 int l7 = 0;
 int l8 = 0;
 int l9 = 0;
 m.g0 = l3 = m.g0 - 48L;
 L1: {
  if ((l3 = l3) < 16L) { break L1; }
  Words.put64(b, ((int) l3) - 58872, 0L);
  Words.put64(b, ((int) l3) - 58880, 0L);
  Words.put64(b, ((int) l3) - 58888, 0L);
  Words.put64(b, ((int) l3) - 58896, 0L);
  Core4.f131(m, l3 + 16L, l1, l2);
  l4 = Words.get64(b, ((int) l3) - 58872);
  l5 = Words.get64(b, ((int) l3) - 58880);
  L2: {
   L3: {
    if (!(l2 == 0L)) { break L3; }
    l6 = 0;
    break L2;
   }
   l6 = (l7 = (int) b[((int) l1) - 58912]) & 255;
   L4: {
    if (l7 > -1) { break L4; }
    l8 = (b[((int) l1) - 58911] & 0xff) & 63;
    L5: {
     if (l7 + Integer.MIN_VALUE > 2147483615) { break L5; }
     l6 = ((l6 << 6) & 1984) | l8;
     break L4;
    }
    l9 = (b[((int) l1) - 58910] & 0xff) & 63;
    L6: {
     if (l7 + Integer.MIN_VALUE > 2147483631) { break L6; }
     l6 = ((l8 << 6) | ((l6 << 12) & 61440)) | l9;
     break L4;
    }
    l6 = ((l9 << 6) | ((l8 << 12) | ((l6 << 18) & 1835008))) | ((b[((int) l1) - 58909] & 0xff) & 63);
   }
   l6 = (((l6 + -48) + Integer.MIN_VALUE < -2147483638) | ((l6 + -65296) + Integer.MIN_VALUE < -2147483638)) ? 1 : 0;
  }
  Core4.f132(m, l3, l6, l5, l4);
  l1 = Words.get64(b, ((int) l3) - 58912);
  Words.put64(b, ((int) l0) - 58904, Words.get64(b, ((int) l3) - 58904));
  Words.put64(b, ((int) l0) - 58912, l1);
  m.g0 = l3 + 48L;
  return;
 }
 throw State.trap();
}

static void f276(State m, long l0, int l1, long l2, long l3) {
 final byte[] b = m.bytes;
 long l4 = 0;
 long l5 = 0;
 long l6 = 0;
 long l7 = 0;
 long l8 = 0;
 long l9 = 0;
 long l10 = 0;
 long l11 = 0;
 int l12 = 0;
 int l13 = 0;
 int l14 = 0;
 int l15 = 0;
 int l16 = 0;
 int l17 = 0;
 m.g0 = l4 = m.g0 - 240L;
 L1: {
  L2: {
   L3: {
    L4: {
     L5: {
      L6: {
       if ((l4 = l4) < 16L) { break L6; }
       Words.put64(b, ((int) l4) - 58808, 0L);
       Words.put64(b, ((int) l4) - 58816, 0L);
       Words.put64(b, ((int) l4) - 58824, 0L);
       Words.put64(b, ((int) l4) - 58832, 0L);
       Words.put64(b, ((int) l4) - 58840, 0L);
       Core7.f245(m, l4 + 72L, l2, l3);
       if ((b[((int) l4) - 58840] & 0xff) != 1) { break L2; }
       l5 = Words.get64(b, ((int) l4) - 58808);
       l6 = Words.get64(b, ((int) l4) - 58816);
       l7 = Words.get64(b, ((int) l4) - 58824);
       l8 = Words.get64(b, ((int) l4) - 58832);
       Words.put64(b, ((int) l4) - 58744, 0L);
       Words.put64(b, ((int) l4) - 58752, 0L);
       Words.put64(b, ((int) l4) - 58760, 0L);
       Words.put64(b, ((int) l4) - 58768, 0L);
       Words.put64(b, ((int) l4) - 58776, 0L);
       Words.put64(b, ((int) l4) - 58784, 0L);
       Words.put64(b, ((int) l4) - 58792, 0L);
       Words.put64(b, ((int) l4) - 58800, 0L);
       Core3.f80(m, l4 + 112L, l2, l3, l1);
       l12 = 0;
       if ((b[((int) l4) - 58800] & 0xff) != 0) { break L1; }
       l9 = Words.get64(b, ((int) l4) - 58776);
       l10 = Words.get64(b, ((int) l4) - 58784);
       l13 = b[((int) l4) - 58752] & 0xff;
       l3 = l6;
       l11 = l5;
       L7: {
        L8: while (true) {
         if (l11 == 0L) { break L7; }
         l15 = (l14 = (int) b[((int) l3) - 58912]) & 255;
         l2 = 1L;
         L9: {
          if (l14 > -1) { break L9; }
          l16 = (b[((int) l3) - 58911] & 0xff) & 63;
          L10: {
           if (l14 + Integer.MIN_VALUE > 2147483615) { break L10; }
           l15 = ((l15 << 6) & 1984) | l16;
           l2 = 2L;
           break L9;
          }
          l17 = (b[((int) l3) - 58910] & 0xff) & 63;
          L11: {
           if (l14 + Integer.MIN_VALUE > 2147483631) { break L11; }
           l15 = ((l16 << 6) | ((l15 << 12) & 61440)) | l17;
           l2 = 3L;
           break L9;
          }
          l15 = ((l17 << 6) | ((l16 << 12) | ((l15 << 18) & 1835008))) | ((b[((int) l3) - 58909] & 0xff) & 63);
          l2 = 4L;
         }
         Core2.f61(m, l4 + 48L, l15);
         L12: {
          if ((b[((int) l4) - 58864] & 0xff) != 1) { break L12; }
          l11 = l11 - l2;
          l3 = l3 + l2;
          if (((b[((int) l4) - 58863] & 0xff) & 255) + Integer.MIN_VALUE > -2147483647) { continue L8; }
         }
         break L8;
        }
        if (l5 == 0L) { break L5; }
        l15 = (l14 = (int) b[((int) l6) - 58912]) & 255;
        l3 = 1L;
        L13: {
         if (l14 > -1) { break L13; }
         l16 = (b[((int) l6) - 58911] & 0xff) & 63;
         L14: {
          if (l14 + Integer.MIN_VALUE > 2147483615) { break L14; }
          l15 = ((l15 << 6) & 1984) | l16;
          l3 = 2L;
          break L13;
         }
         l17 = (b[((int) l6) - 58910] & 0xff) & 63;
         L15: {
          if (l14 + Integer.MIN_VALUE > 2147483631) { break L15; }
          l15 = ((l16 << 6) | ((l15 << 12) & 61440)) | l17;
          l3 = 3L;
          break L13;
         }
         l15 = ((l17 << 6) | ((l16 << 12) | ((l15 << 18) & 1835008))) | ((b[((int) l6) - 58909] & 0xff) & 63);
         l3 = 4L;
        }
        L16: {
         L17: {
          if (l15 > 35999) { break L17; }
          if (l15 == 45) { break L16; }
          if (l15 == 8722) { break L16; }
          break L5;
         }
         if (l15 == 36000) { break L16; }
         if (l15 == 65293) { break L16; }
         if (l15 != 36127) { break L5; }
        }
        f277(m, l4 + 40L, l1, l6 + l3, l5 - l3);
        l15 = b[((int) l4) - 58871] & 0xff;
        break L4;
       }
       Words.put64(b, ((int) l4) - 58696, 0L);
       Words.put64(b, ((int) l4) - 58704, 1L);
       Words.put64(b, ((int) l4) - 58720, l10);
       Words.put64(b, ((int) l4) - 58688, 0L);
       Words.put64(b, ((int) l4) - 58680, 0L);
       Words.put64(b, ((int) l4) - 58712, l9);
       m.fill((int) (l4 + 112L), 0, (int) 80L);
       Core2.f52(m, l4 + 16L, l4 + 112L, l4 + 192L);
       break L3;
      }
      throw State.trap();
     }
     f277(m, l4 + 32L, l1, l6, l5);
     l15 = b[((int) l4) - 58879] & 0xff;
    }
    if ((l15 & 1) == 0) { break L1; }
   }
   L18: {
    if ((l13 & 255) != 2) { break L18; }
    l12 = 1;
    break L1;
   }
   Words.put64(b, ((int) l4) - 58744, 0L);
   Words.put64(b, ((int) l4) - 58752, 0L);
   Words.put64(b, ((int) l4) - 58760, 0L);
   Words.put64(b, ((int) l4) - 58768, 0L);
   Words.put64(b, ((int) l4) - 58776, 0L);
   Words.put64(b, ((int) l4) - 58784, 0L);
   Words.put64(b, ((int) l4) - 58792, 0L);
   Words.put64(b, ((int) l4) - 58800, 0L);
   Core3.f80(m, l4 + 112L, l8, l7, l1);
   if ((b[((int) l4) - 58800] & 0xff) != 0) { break L1; }
   final int t19 = (Words.get64(b, ((int) l4) - 58784) + Long.MIN_VALUE > -9223372036854774809L) ? 1 : 0;
   final int t20 = ((l3 = Words.get64(b, ((int) l4) - 58776)) > 0L) ? 1 : 0;
   final int t21 = (l3 == 0L) ? 1 : 0;
   if ((t21 != 0 ? t19 : t20) != 0) { break L1; }
   f277(m, l4 + 8L, l1, l8, l7);
   l12 = b[((int) l4) - 58903] & 0xff;
   break L1;
  }
  L22: {
   if (!(l3 == 0L)) { break L22; }
   l12 = 0;
   break L1;
  }
  L23: {
   if ((l15 = (int) b[((int) (l2 + (l11 = l3 + -1L))) - 58912]) >= 0) { break L23; }
   l11 = -2L;
   L24: {
    if ((b[((int) ((l6 = l2 + l3) + -2L)) - 58912] & 0xff) + Integer.MIN_VALUE > -2147483457) { break L24; }
    l11 = ((b[((int) (l6 + -3L)) - 58912] & 0xff) + Integer.MIN_VALUE > -2147483457) ? -3L : -4L;
   }
   l15 = (l14 = (int) b[((int) (l6 = l2 + (l11 = l11 + l3))) - 58912]) & 255;
   if (l14 > -1) { break L23; }
   l16 = (b[((int) l6) - 58911] & 0xff) & 63;
   L25: {
    if (l14 + Integer.MIN_VALUE > 2147483615) { break L25; }
    l15 = ((l15 << 6) & 1984) | l16;
    break L23;
   }
   l12 = (b[((int) l6) - 58910] & 0xff) & 63;
   L26: {
    if (l14 + Integer.MIN_VALUE > 2147483631) { break L26; }
    l15 = ((l16 << 6) | ((l15 << 12) & 61440)) | l12;
    break L23;
   }
   l15 = ((l12 << 6) | ((l16 << 12) | ((l15 << 18) & 1835008))) | ((b[((int) l6) - 58909] & 0xff) & 63);
  }
  L27: {
   L28: {
    if (l15 == 37) { break L28; }
    if (l15 == 65285) { break L28; }
    if (l15 != 8240) { break L27; }
   }
   f277(m, l4 + 64L, l1, l2, l11);
   l12 = (b[((int) l4) - 58847] & 0xff) & 1;
   break L1;
  }
  f277(m, l4 + 56L, l1, l2, l3);
  l12 = b[((int) l4) - 58855] & 0xff;
 }
 b[((int) l0) - 58911] = (byte) l12;
 b[((int) l0) - 58912] = (byte) 0;
 m.g0 = l4 + 240L;
}

static void f277(State m, long l0, int l1, long l2, long l3) {
 final byte[] b = m.bytes;
 long l4 = 0;
 long l5 = 0;
 long l6 = 0;
 long l7 = 0;
 long l8 = 0;
 long l9 = 0;
 long l10 = 0;
 int l11 = 0;
 int l12 = 0;
 int l13 = 0;
 int l14 = 0;
 int l15 = 0;
 int l16 = 0;
 m.g0 = l4 = m.g0 - 336L;
 L1: {
  L2: {
   L3: {
    if ((l4 = l4) < 16L) { break L3; }
    Words.put64(b, ((int) l4) - 58776, 0L);
    Words.put64(b, ((int) l4) - 58784, 0L);
    Words.put64(b, ((int) l4) - 58792, 0L);
    Words.put64(b, ((int) l4) - 58800, 0L);
    Words.put64(b, ((int) l4) - 58808, 0L);
    L4: {
     if ((l11 = (l3 == 0L) ? 1 : 0) != 0) { break L4; }
     l13 = (l12 = (int) b[((int) l2) - 58912]) & 255;
     L5: {
      if (l12 > -1) { break L5; }
      l14 = (b[((int) l2) - 58911] & 0xff) & 63;
      L6: {
       if (l12 + Integer.MIN_VALUE > 2147483615) { break L6; }
       l13 = ((l13 << 6) & 1984) | l14;
       break L5;
      }
      l15 = (b[((int) l2) - 58910] & 0xff) & 63;
      L7: {
       if (l12 + Integer.MIN_VALUE > 2147483631) { break L7; }
       l13 = ((l14 << 6) | ((l13 << 12) & 61440)) | l15;
       break L5;
      }
      l13 = ((l15 << 6) | ((l14 << 12) | ((l13 << 18) & 1835008))) | ((b[((int) l2) - 58909] & 0xff) & 63);
     }
     l16 = 1;
     if ((l13 + -48) + Integer.MIN_VALUE < -2147483638) { break L1; }
     if ((l13 + -65296) + Integer.MIN_VALUE < -2147483638) { break L1; }
    }
    l5 = l2;
    l6 = l3;
    L8: {
     L9: {
      L10: {
       L11: while (true) {
        if (l6 == 0L) { break L10; }
        l13 = (l12 = (int) b[((int) l5) - 58912]) & 255;
        l7 = 1L;
        L12: {
         if (l12 > -1) { break L12; }
         l14 = (b[((int) l5) - 58911] & 0xff) & 63;
         L13: {
          if (l12 + Integer.MIN_VALUE > 2147483615) { break L13; }
          l13 = ((l13 << 6) & 1984) | l14;
          l7 = 2L;
          break L12;
         }
         l15 = (b[((int) l5) - 58910] & 0xff) & 63;
         L14: {
          if (l12 + Integer.MIN_VALUE > 2147483631) { break L14; }
          l13 = ((l14 << 6) | ((l13 << 12) & 61440)) | l15;
          l7 = 3L;
          break L12;
         }
         l13 = ((l15 << 6) | ((l14 << 12) | ((l13 << 18) & 1835008))) | ((b[((int) l5) - 58909] & 0xff) & 63);
         l7 = 4L;
        }
        Core2.f63(m, l4 + 96L, l13);
        L15: {
         if ((l13 + -58) + Integer.MIN_VALUE > 2147483637) { break L15; }
         l6 = l6 - l7;
         l5 = l5 + l7;
         if (((b[((int) l4) - 58816] & 0xff) & 255) == 1) { continue L11; }
        }
        break L11;
       }
       Core7.f247(m, l4 + 104L, l2, l3);
       if ((b[((int) l4) - 58808] & 0xff) != 1) { break L8; }
       l7 = Words.get64(b, ((int) l4) - 58776);
       l2 = Words.get64(b, ((int) l4) - 58784);
       l5 = Words.get64(b, ((int) l4) - 58792);
       l6 = Words.get64(b, ((int) l4) - 58800);
       Words.put64(b, ((int) l4) - 58600, 0L);
       Words.put64(b, ((int) l4) - 58608, 0L);
       Words.put64(b, ((int) l4) - 58616, 0L);
       Words.put64(b, ((int) l4) - 58624, 0L);
       Words.put64(b, ((int) l4) - 58632, 0L);
       Words.put64(b, ((int) l4) - 58640, 0L);
       Words.put64(b, ((int) l4) - 58648, 0L);
       Words.put64(b, ((int) l4) - 58656, 0L);
       Core3.f80(m, l4 + 256L, l6, l5, l1);
       Words.put64(b, ((int) l4) - 58768, Words.get64(b, ((int) l4) - 58640));
       Words.put64(b, ((int) l4) - 58760, Words.get64(b, ((int) l4) - 58632));
       Words.put64(b, ((int) l4) - 58752, Words.get64(b, ((int) l4) - 58624));
       Words.put64(b, ((int) l4) - 58744, Words.get64(b, ((int) l4) - 58616));
       Words.put64(b, ((int) l4) - 58736, Words.get64(b, ((int) l4) - 58608));
       Words.put64(b, ((int) l4) - 58728, Words.get64(b, ((int) l4) - 58600));
       if ((b[((int) l4) - 58656] & 0xff) == 0) { break L9; }
       l16 = 0;
       break L1;
      }
      l16 = 1;
      if (l11 != 0) { break L1; }
      L16: while (true) {
       l13 = (l12 = (int) b[((int) l2) - 58912]) & 255;
       l5 = 1L;
       L17: {
        if (l12 > -1) { break L17; }
        l14 = (b[((int) l2) - 58911] & 0xff) & 63;
        L18: {
         if (l12 + Integer.MIN_VALUE > 2147483615) { break L18; }
         l13 = ((l13 << 6) & 1984) | l14;
         l5 = 2L;
         break L17;
        }
        l15 = (b[((int) l2) - 58910] & 0xff) & 63;
        L19: {
         if (l12 + Integer.MIN_VALUE > 2147483631) { break L19; }
         l13 = ((l14 << 6) | ((l13 << 12) & 61440)) | l15;
         l5 = 3L;
         break L17;
        }
        l13 = ((l15 << 6) | ((l14 << 12) | ((l13 << 18) & 1835008))) | ((b[((int) l2) - 58909] & 0xff) & 63);
        l5 = 4L;
       }
       Core2.f63(m, l4 + 8L, l13);
       l2 = l2 + l5;
       if (!((l3 = l3 - l5) == 0L)) { continue L16; }
       break L1;
      }
     }
     m.fill((int) (l4 + 256L), 0, (int) 80L);
     Core2.f52(m, l4 + 24L, l4 + 256L, l4 + 144L);
     l16 = 1;
     if (l7 == 0L) { break L1; }
     L20: while (true) {
      l13 = (l12 = (int) b[((int) l2) - 58912]) & 255;
      l5 = 1L;
      L21: {
       if (l12 > -1) { break L21; }
       l14 = (b[((int) l2) - 58911] & 0xff) & 63;
       L22: {
        if (l12 + Integer.MIN_VALUE > 2147483615) { break L22; }
        l13 = ((l13 << 6) & 1984) | l14;
        l5 = 2L;
        break L21;
       }
       l15 = (b[((int) l2) - 58910] & 0xff) & 63;
       L23: {
        if (l12 + Integer.MIN_VALUE > 2147483631) { break L23; }
        l13 = ((l14 << 6) | ((l13 << 12) & 61440)) | l15;
        l5 = 3L;
        break L21;
       }
       l13 = ((l15 << 6) | ((l14 << 12) | ((l13 << 18) & 1835008))) | ((b[((int) l2) - 58909] & 0xff) & 63);
       l5 = 4L;
      }
      Core2.f63(m, l4 + 16L, l13);
      l2 = l2 + l5;
      if (!((l7 = l7 - l5) == 0L)) { continue L20; }
      break L1;
     }
    }
    L24: {
     if (Core7.f248(m, l2, l3) == 0) { break L24; }
     l16 = 1;
     if (l11 != 0) { break L1; }
     l8 = l4 + 272L;
     l9 = l2;
     l10 = l3;
     L25: while (true) {
      l13 = (l12 = (int) b[((int) l9) - 58912]) & 255;
      l5 = 1L;
      L26: {
       if (l12 > -1) { break L26; }
       l14 = (b[((int) l9) - 58911] & 0xff) & 63;
       L27: {
        if (l12 + Integer.MIN_VALUE > 2147483615) { break L27; }
        l13 = ((l13 << 6) & 1984) | l14;
        l5 = 2L;
        break L26;
       }
       l15 = (b[((int) l9) - 58910] & 0xff) & 63;
       L28: {
        if (l12 + Integer.MIN_VALUE > 2147483631) { break L28; }
        l13 = ((l14 << 6) | ((l13 << 12) & 61440)) | l15;
        l5 = 3L;
        break L26;
       }
       l13 = ((l15 << 6) | ((l14 << 12) | ((l13 << 18) & 1835008))) | ((b[((int) l9) - 58909] & 0xff) & 63);
       l5 = 4L;
      }
      L29: {
       if (Core7.f249(m, l13, l9 = l9 + l5, l10 = l10 - l5) == 0) { break L29; }
       L30: {
        L31: {
         if (!((l7 = l3 - l10) == 0L)) { break L31; }
         l6 = 0L;
         break L30;
        }
        L32: while (true) {
         l13 = (l12 = (int) b[((int) l2) - 58912]) & 255;
         l5 = 1L;
         L33: {
          if (l12 > -1) { break L33; }
          l14 = (b[((int) l2) - 58911] & 0xff) & 63;
          L34: {
           if (l12 + Integer.MIN_VALUE > 2147483615) { break L34; }
           l13 = ((l13 << 6) & 1984) | l14;
           l5 = 2L;
           break L33;
          }
          l15 = (b[((int) l2) - 58910] & 0xff) & 63;
          L35: {
           if (l12 + Integer.MIN_VALUE > 2147483631) { break L35; }
           l13 = ((l14 << 6) | ((l13 << 12) & 61440)) | l15;
           l5 = 3L;
           break L33;
          }
          l13 = ((l15 << 6) | ((l14 << 12) | ((l13 << 18) & 1835008))) | ((b[((int) l2) - 58909] & 0xff) & 63);
          l5 = 4L;
         }
         L36: {
          if (l13 == 38646) { break L36; }
          if (l13 == 12295) { break L36; }
          l6 = l7;
          break L30;
         }
         l2 = l2 + l5;
         l6 = 0L;
         if ((l7 = l7 - l5) != 0L) { continue L32; }
         break L32;
        }
       }
       Words.put64(b, ((int) l4) - 58680, 0L);
       Words.put64(b, ((int) l4) - 58688, 0L);
       Words.put64(b, ((int) l4) - 58696, 0L);
       Words.put64(b, ((int) l4) - 58704, 0L);
       Core7.f250(m, l4 + 208L, l2, l6);
       l2 = Words.get64(b, ((int) l4) - 58696);
       l5 = Words.get64(b, ((int) l4) - 58704);
       Words.put64(b, ((int) l4) - 58600, 0L);
       Words.put64(b, ((int) l4) - 58608, 0L);
       Words.put64(b, ((int) l4) - 58616, 0L);
       Words.put64(b, ((int) l4) - 58624, 0L);
       Words.put64(b, ((int) l4) - 58632, 0L);
       Words.put64(b, ((int) l4) - 58640, 0L);
       Words.put64(b, ((int) l4) - 58648, 0L);
       Words.put64(b, ((int) l4) - 58656, 0L);
       Core3.f80(m, l4 + 256L, l5, l2, l1);
       Words.put64(b, ((int) l4) - 58768, Words.get64(b, ((int) l8) - 58912));
       Words.put64(b, ((int) l4) - 58760, Words.get64(b, ((int) l8) - 58904));
       Words.put64(b, ((int) l4) - 58752, Words.get64(b, ((int) l8) - 58896));
       Words.put64(b, ((int) l4) - 58744, Words.get64(b, ((int) l8) - 58888));
       Words.put64(b, ((int) l4) - 58736, Words.get64(b, ((int) l8) - 58880));
       Words.put64(b, ((int) l4) - 58728, Words.get64(b, ((int) l8) - 58872));
       if ((b[((int) l4) - 58656] & 0xff) != 0) { break L2; }
       m.fill((int) (l4 + 256L), 0, (int) 80L);
       Core2.f52(m, l4 + 40L, l4 + 256L, l4 + 144L);
       l3 = l10;
       l2 = l9;
      }
      if (!(l10 == 0L)) { continue L25; }
      break L1;
     }
    }
    Words.put64(b, ((int) l4) - 58712, 0L);
    Words.put64(b, ((int) l4) - 58720, 0L);
    Words.put64(b, ((int) l4) - 58728, 0L);
    Words.put64(b, ((int) l4) - 58736, 0L);
    Words.put64(b, ((int) l4) - 58744, 0L);
    Words.put64(b, ((int) l4) - 58752, 0L);
    Words.put64(b, ((int) l4) - 58760, 0L);
    Words.put64(b, ((int) l4) - 58768, 0L);
    Core7.f251(m, l4 + 144L, l2, l3);
    L37: {
     L38: {
      L39: {
       if ((b[((int) l4) - 58768] & 0xff) != 1) { break L39; }
       l13 = Words.get32(b, ((int) l4) - 58744);
       l2 = Words.get64(b, ((int) l4) - 58752);
       l5 = Words.get64(b, ((int) l4) - 58760);
       Words.put64(b, ((int) l4) - 58600, 0L);
       Words.put64(b, ((int) l4) - 58608, 0L);
       Words.put64(b, ((int) l4) - 58616, 0L);
       Words.put64(b, ((int) l4) - 58624, 0L);
       Words.put64(b, ((int) l4) - 58632, 0L);
       Words.put64(b, ((int) l4) - 58640, 0L);
       Words.put64(b, ((int) l4) - 58648, 0L);
       Words.put64(b, ((int) l4) - 58656, 0L);
       Core3.f80(m, l4 + 256L, l5, l2, l1);
       Words.put64(b, ((int) l4) - 58704, Words.get64(b, ((int) l4) - 58640));
       Words.put64(b, ((int) l4) - 58696, Words.get64(b, ((int) l4) - 58632));
       Words.put64(b, ((int) l4) - 58688, Words.get64(b, ((int) l4) - 58624));
       Words.put64(b, ((int) l4) - 58680, Words.get64(b, ((int) l4) - 58616));
       Words.put64(b, ((int) l4) - 58672, Words.get64(b, ((int) l4) - 58608));
       Words.put64(b, ((int) l4) - 58664, Words.get64(b, ((int) l4) - 58600));
       if ((b[((int) l4) - 58656] & 0xff) == 0) { break L38; }
       l16 = 0;
       break L1;
      }
      Words.put64(b, ((int) l4) - 58600, 0L);
      Words.put64(b, ((int) l4) - 58608, 0L);
      Words.put64(b, ((int) l4) - 58616, 0L);
      Words.put64(b, ((int) l4) - 58624, 0L);
      Words.put64(b, ((int) l4) - 58632, 0L);
      Words.put64(b, ((int) l4) - 58640, 0L);
      Words.put64(b, ((int) l4) - 58648, 0L);
      Words.put64(b, ((int) l4) - 58656, 0L);
      Core3.f80(m, l4 + 256L, l2, l3, l1);
      Words.put64(b, ((int) l4) - 58704, Words.get64(b, ((int) l4) - 58640));
      Words.put64(b, ((int) l4) - 58696, Words.get64(b, ((int) l4) - 58632));
      Words.put64(b, ((int) l4) - 58688, Words.get64(b, ((int) l4) - 58624));
      Words.put64(b, ((int) l4) - 58680, Words.get64(b, ((int) l4) - 58616));
      Words.put64(b, ((int) l4) - 58672, Words.get64(b, ((int) l4) - 58608));
      Words.put64(b, ((int) l4) - 58664, Words.get64(b, ((int) l4) - 58600));
      l16 = 0;
      if ((b[((int) l4) - 58656] & 0xff) != 0) { break L1; }
      m.fill((int) (l4 + 256L), 0, (int) 80L);
      Core2.f52(m, l4 + 80L, l4 + 256L, l4 + 208L);
      break L37;
     }
     m.fill((int) (l4 + 256L), 0, (int) 80L);
     Core2.f52(m, l4 + 64L, l4 + 256L, l4 + 208L);
     Core2.f63(m, l4 + 56L, l13);
    }
    l16 = 1;
    break L1;
   }
   throw State.trap();
  }
  l16 = 0;
 }
 b[((int) l0) - 58911] = (byte) l16;
 b[((int) l0) - 58912] = (byte) 0;
 m.g0 = l4 + 336L;
}

static void f278(State m, long l0, long l1, long l2) {
 final byte[] b = m.bytes;
 long l3 = 0;
 long l4 = 0;
 long l5 = 0;
 int l6 = 0;
 int l7 = 0;
 int l8 = 0;
 int l9 = 0;
 m.g0 = l3 = m.g0 - 16L;
 L1: {
  if ((l4 = l3) < 16L) { break L1; }
  L2: {
   if (l2 == 0L) { break L2; }
   L3: while (true) {
    l7 = (l6 = (int) b[((int) l1) - 58912]) & 255;
    l5 = 1L;
    L4: {
     if (l6 > -1) { break L4; }
     l8 = (b[((int) l1) - 58911] & 0xff) & 63;
     L5: {
      if (l6 + Integer.MIN_VALUE > 2147483615) { break L5; }
      l7 = ((l7 << 6) & 1984) | l8;
      l5 = 2L;
      break L4;
     }
     l9 = (b[((int) l1) - 58910] & 0xff) & 63;
     L6: {
      if (l6 + Integer.MIN_VALUE > 2147483631) { break L6; }
      l7 = ((l8 << 6) | ((l7 << 12) & 61440)) | l9;
      l5 = 3L;
      break L4;
     }
     l7 = ((l9 << 6) | ((l8 << 12) | ((l7 << 18) & 1835008))) | ((b[((int) l1) - 58909] & 0xff) & 63);
     l5 = 4L;
    }
    l3 = -44L;
    L7: {
     L8: while (true) {
      if ((l8 = Words.get32(b, ((int) (l3 + 87508L)) - 58912)) == l7) { break L7; }
      l6 = (l3 != 0L) ? 1 : 0;
      l3 = l3 + 4L;
      if (l6 != 0) { continue L8; }
      break L8;
     }
    }
    l2 = l2 - l5;
    L9: {
     L10: {
      if (l8 != l7) { break L10; }
      L11: {
       L12: {
        if (l7 != 24186) { break L12; }
        l3 = 98133L;
        break L11;
       }
       l3 = -44L;
       L13: {
        L14: while (true) {
         if ((l8 = Words.get32(b, ((int) (l3 + 87508L)) - 58912)) == l7) { break L13; }
         l6 = (l3 != 0L) ? 1 : 0;
         l3 = l3 + 4L;
         if (l6 != 0) { continue L14; }
         break L14;
        }
       }
       L15: {
        L16: {
         if (l8 != l7) { break L16; }
         Core2.f63(m, l4, l7);
         l7 = b[((int) l4) - 58911] & 0xff;
         l6 = b[((int) l4) - 58912] & 0xff;
         break L15;
        }
        Core1.f24(m, l4 + 8L, l7);
        l7 = b[((int) l4) - 58903] & 0xff;
        l6 = b[((int) l4) - 58904] & 0xff;
       }
       L17: {
        if ((l6 & 255) == 1) { break L17; }
        l3 = 98132L;
        break L11;
       }
       l3 = Words.get64(b, State.far((int) (((l7 & 0xffffffffL) & 255L) << 3L), 102816));
      }
      Core2.f53(m, l0, l3, 1L);
      break L9;
     }
     L18: {
      L19: {
       L20: {
        L21: {
         L22: {
          if (l7 > 28856) { break L22; }
          switch (l7 + -45) {
          case 0: break L18;
          case 1: break L21;
          default: break L20;
          }
         }
         if (l7 == 40670) { break L21; }
         if (l7 != 28857) { break L19; }
        }
        Core2.f53(m, l0, 98142L, 1L);
        break L9;
       }
       if (l7 == 26464) { break L18; }
      }
      Words.put32(b, ((int) l4) - 58900, 0);
      L23: {
       L24: {
        if (l7 + Integer.MIN_VALUE > -2147483521) { break L24; }
        b[((int) l4) - 58900] = (byte) l7;
        l3 = 1L;
        break L23;
       }
       L25: {
        if (l7 + Integer.MIN_VALUE > -2147481601) { break L25; }
        b[((int) l4) - 58899] = (byte) ((l7 & 63) | 128);
        b[((int) l4) - 58900] = (byte) ((l7 >>> 6) | 192);
        l3 = 2L;
        break L23;
       }
       L26: {
        if (l7 + Integer.MIN_VALUE > -2147418113) { break L26; }
        b[((int) l4) - 58898] = (byte) ((l7 & 63) | 128);
        b[((int) l4) - 58900] = (byte) ((l7 >>> 12) | 224);
        b[((int) l4) - 58899] = (byte) (((l7 >>> 6) & 63) | 128);
        l3 = 3L;
        break L23;
       }
       b[((int) l4) - 58897] = (byte) ((l7 & 63) | 128);
       b[((int) l4) - 58900] = (byte) ((l7 >>> 18) | 240);
       b[((int) l4) - 58898] = (byte) (((l7 >>> 6) & 63) | 128);
       b[((int) l4) - 58899] = (byte) (((l7 >>> 12) & 63) | 128);
       l3 = 4L;
      }
      Core2.f53(m, l0, l4 + 12L, l3);
      break L9;
     }
     Core2.f53(m, l0, 77252L, 1L);
    }
    l1 = l1 + l5;
    if (l2 != 0L) { continue L3; }
    break L3;
   }
  }
  m.g0 = l4 + 16L;
  return;
 }
 throw State.trap();
}

static int f279_1(State m, long l0, long l1, long l2, long l3, long l4, long l5, long l6, long l7, long l8, long l9, long l10, long l11, long l14, long l15, int l16, int l17, int l18, int l19, int l20, int l21, int l22, int l23) {
 final byte[] b = m.bytes;
 int exit = 0;
 PART: {
  L6: {
   L7: {
    switch (l17) {
    case 1: break L6;
    case 2: exit = 1; break PART;
    case 3: exit = 2; break PART;
    default: break L7;
    }
   }
   Words.put16(b, ((int) l5) - 58276, (short) (l18 = (int) (l3 >>> 40L)));
   b[((int) (l5 + 638L)) - 58912] = (byte) (l18 >>> 16);
   b[((int) l5) - 58277] = (byte) l23;
   b[((int) l5) - 58278] = (byte) l16;
   Words.put16(b, ((int) l5) - 58280, (short) ((int) (l3 >>> 8L)));
   b[((int) l5) - 58303] = (byte) l20;
   b[((int) l5) - 58304] = (byte) l19;
   Words.put32(b, ((int) l5) - 58302, Words.get32(b, ((int) l5) - 58536));
   Words.put16(b, ((int) l5) - 58298, (short) (Words.get16(b, ((int) l5) - 58532) & 0xffff));
   Words.put64(b, ((int) l5) - 58288, l10);
   Words.put64(b, ((int) l5) - 58296, l9);
   l18 = 0;
   if (f265(m, l5 + 632L, l6, l0, l5 + 608L, l7, l8) == 0) { exit = 3; break PART; }
   L8: {
    if ((l3 & 281474976710656L) == 0L) { break L8; }
    b[((int) l5) - 58479] = (byte) l20;
    b[((int) l5) - 58480] = (byte) l19;
    Words.put32(b, ((int) l5) - 58478, Words.get32(b, ((int) l5) - 58536));
    Words.put16(b, ((int) l5) - 58474, (short) (Words.get16(b, ((int) l5) - 58532) & 0xffff));
    Words.put64(b, ((int) l5) - 58464, l10);
    Words.put64(b, ((int) l5) - 58472, l9);
    if ((f266(m, l6, l0, l5 + 432L, l7, l8) & 1) == 0) { break L8; }
    Words.put32(b, ((int) l5) - 58088, 0);
    Words.put64(b, ((int) l5) - 58096, 0L);
    Core4.f120(m, l5 + 816L, l20, l5 + 376L);
    L9: {
     if ((b[((int) l5) - 58096] & 0xff) != 1) { break L9; }
     l4 = Words.get64(b, ((int) l5) - 58092);
     L10: {
      L11: {
       L12: {
        switch ((int) (b[((int) l5) - 58094] & 0xffL)) {
        case 1: case 2: case 3: case 5: case 7: case 8: break L9;
        case 4: break L11;
        case 6: break L10;
        default: break L12;
        }
       }
       if (f272(m, l9, l10) != 0) { break L9; }
       if ((l4 & 71777214277878015L) != 281479271677953L) { break L9; }
       if (((((int) (l0 = l4 >>> 16L)) + -10000) & 65535) + Integer.MIN_VALUE < -2147427112) { break L9; }
       Words.put64(b, ((int) l5) - 58232, 0L);
       Words.put64(b, ((int) l5) - 58239, 0L);
       Words.put64(b, ((int) l5) - 58248, 0L);
       l3 = 1L;
       Words.put64(b, ((int) l5) - 58256, 1L);
       Words.put64(b, ((int) l5) - 58264, 0L);
       b[((int) l5) - 58240] = (byte) 0;
       Words.put64(b, ((int) l5) - 58272, l0 & 65535L);
       m.fill((int) (l5 + 432L), 0, (int) 80L);
       Core2.f52(m, l5 + 24L, l5 + 432L, l5 + 640L);
       Core2.f53(m, l1, Words.get64(b, ((int) l5) - 58888), Words.get64(b, ((int) l5) - 58880));
       f280(m, l1, (int) (l4 >>> 40L));
       f280(m, l1, (int) (l4 >>> 56L));
       Words.put64(b, ((int) l5) - 58464, 0L);
       Words.put64(b, ((int) l5) - 58472, 0L);
       Words.put64(b, ((int) l5) - 58480, 0L);
       l4 = 99433L;
       L13: {
        if (Core4.f130(m, l9, l10) != 0) { break L13; }
        Core4.f134(m, l5 + 432L, 21, l9, l10);
        l4 = ((l18 = (((b[((int) l5) - 58480] & 0xff) & 255) == 1) ? 1 : 0) != 0) ? 99433L : 83372L;
        l3 = l18 & 0xffffffffL;
       }
       Core2.f53(m, l1, l4, l3);
       l18 = 1;
       exit = 3; break PART;
      }
      b[((int) l5) - 58160] = (byte) (b[((int) l5) - 58093] & 0xff);
      Words.put16(b, ((int) l5) - 58159, (short) l4);
      if (f273(m, l19, l6, l0, l7, l8, l9, l10) != 0) { break L9; }
      if (f274(m, l9, l10) != 0) { break L9; }
      Core4.f122(m, l5 + 56L, l19, l7, l8, l5 + 752L);
      if ((b[((int) l5) - 58856] & 0xff) != 1) { break L9; }
      l18 = b[((int) l5) - 58855] & 0xff;
      L14: {
       if ((l19 & 255) != 2) { break L14; }
       Words.put64(b, ((int) l5) - 58464, 0L);
       Words.put64(b, ((int) l5) - 58472, 0L);
       Words.put64(b, ((int) l5) - 58480, 0L);
       Core4.f134(m, l5 + 432L, 22, l7, l8);
       if ((b[((int) l5) - 58480] & 0xff) != 1) { break L14; }
       Core2.f53(m, l1, l7, l8 - Words.get64(b, ((int) l5) - 58464));
      }
      l0 = l4 >>> 8L;
      l16 = (int) l4;
      L15: {
       L16: {
        if ((l18 & 255) + Integer.MIN_VALUE > -2147483639) { break L16; }
        Core2.f53(m, l1, 98132L, 1L);
        break L15;
       }
       Core2.f53(m, l1, 83372L, 0L);
      }
      l17 = (int) l0;
      Words.put64(b, ((int) l5) - 58232, 0L);
      Words.put64(b, ((int) l5) - 58239, 0L);
      Words.put64(b, ((int) l5) - 58248, 0L);
      Words.put64(b, ((int) l5) - 58256, 1L);
      Words.put64(b, ((int) l5) - 58264, 0L);
      b[((int) l5) - 58240] = (byte) 0;
      Words.put64(b, ((int) l5) - 58272, (l18 & 0xffffffffL) & 255L);
      m.fill((int) (l5 + 432L), 0, (int) 80L);
      Core2.f52(m, l5 + 40L, l5 + 432L, l5 + 640L);
      Core2.f53(m, l1, Words.get64(b, ((int) l5) - 58872), Words.get64(b, ((int) l5) - 58864));
      f281(m, l1, l16);
      L17: {
       if (((1 << l20) & -1064961) != 0) { break L17; }
       f281(m, l1, l17);
      }
      Words.put64(b, ((int) l5) - 58464, 0L);
      Words.put64(b, ((int) l5) - 58472, 0L);
      Words.put64(b, ((int) l5) - 58480, 0L);
      L18: {
       if (Core4.f130(m, l9, l10) == 0) { break L18; }
       Core2.f53(m, l1, 99433L, 1L);
       l18 = 1;
       exit = 3; break PART;
      }
      Core4.f134(m, l5 + 432L, 21, l9, l10);
      Core2.f53(m, l1, ((l18 = (((b[((int) l5) - 58480] & 0xff) & 255) == 1) ? 1 : 0) != 0) ? 99433L : 83372L, l18 & 0xffffffffL);
      l18 = 1;
      exit = 3; break PART;
     }
     Words.put64(b, ((int) l5) - 58232, 0L);
     Words.put64(b, ((int) l5) - 58239, 0L);
     Words.put64(b, ((int) l5) - 58248, 0L);
     Words.put64(b, ((int) l5) - 58264, 0L);
     b[((int) l5) - 58240] = (byte) 1;
     Words.put64(b, ((int) l5) - 58256, 10L);
     Words.put64(b, ((int) l5) - 58272, ((l4 & 65535L) * 10L) + 5L);
     m.fill((int) (l5 + 432L), 0, (int) 80L);
     Core2.f52(m, l5 + 80L, l5 + 432L, l5 + 640L);
     Core2.f53(m, l1, Words.get64(b, ((int) l5) - 58832), Words.get64(b, ((int) l5) - 58824));
     f275(m, l5 + 64L, l7, l8);
     l0 = Words.get64(b, ((int) l5) - 58840);
     l4 = Words.get64(b, ((int) l5) - 58848);
     Words.put64(b, ((int) l5) - 58256, 0L);
     Words.put64(b, ((int) l5) - 58264, 0L);
     Words.put64(b, ((int) l5) - 58272, 0L);
     L19: {
      if (l20 != 26) { break L19; }
      Core4.f138(m, l5 + 640L, 83888L, 2L, 83848L, 1L, l4, l0);
      if ((b[((int) l5) - 58272] & 0xff) != 1) { break L9; }
      l2 = Words.get64(b, ((int) l5) - 58264);
      l3 = Words.get64(b, ((int) l5) - 58256);
      Words.put64(b, ((int) l5) - 58464, 0L);
      Words.put64(b, ((int) l5) - 58472, 0L);
      Words.put64(b, ((int) l5) - 58480, 0L);
      L20: {
       L21: {
        L22: {
         if (l3 == 0L) { break L22; }
         if ((l18 = (int) b[((int) l2) - 58912]) > -1) { break L22; }
         if (l18 + Integer.MIN_VALUE < 2147483616) { break L22; }
         l16 = l18 & 255;
         l17 = (b[((int) l2) - 58911] & 0xff) & 63;
         l19 = (b[((int) l2) - 58910] & 0xff) & 63;
         L23: {
          L24: {
           if (l18 + Integer.MIN_VALUE > 2147483631) { break L24; }
           l18 = ((l17 << 6) | ((l16 << 12) & 61440)) | l19;
           break L23;
          }
          l18 = ((l19 << 6) | ((l17 << 12) | ((l16 << 18) & 1835008))) | ((b[((int) l2) - 58909] & 0xff) & 63);
         }
         if (l0 == 0L) { break L20; }
         if (l18 != 23567) { break L21; }
         break L20;
        }
        if (l0 == 0L) { break L20; }
       }
       L25: {
        L26: {
         if ((l18 = (int) b[((int) l4) - 58912]) <= -1) { break L26; }
         l0 = 1L;
         break L25;
        }
        L27: {
         if (l18 + Integer.MIN_VALUE >= 2147483616) { break L27; }
         l0 = 2L;
         break L25;
        }
        l0 = (l18 + Integer.MIN_VALUE < 2147483632) ? 3L : 4L;
       }
       Core2.f53(m, l1, l4, l0);
      }
      Core5.f160(m, l5 + 432L, l2, l3);
      if ((b[((int) l5) - 58480] & 0xff) != 1) { break L9; }
      Core2.f53(m, l1, l2, l3 - Words.get64(b, ((int) l5) - 58464));
      l18 = 1;
      exit = 3; break PART;
     }
     if (l0 == 0L) { break L9; }
     L28: {
      L29: {
       if ((l18 = (int) b[((int) l4) - 58912]) <= -1) { break L29; }
       l0 = 1L;
       break L28;
      }
      L30: {
       if (l18 + Integer.MIN_VALUE >= 2147483616) { break L30; }
       l0 = 2L;
       break L28;
      }
      l0 = (l18 + Integer.MIN_VALUE < 2147483632) ? 3L : 4L;
     }
     Core2.f53(m, l1, l4, l0);
    }
    l18 = 1;
    exit = 3; break PART;
   }
   l2 = 0L;
   Words.put64(b, ((int) l5) - 58144, 0L);
   Words.put64(b, ((int) l5) - 58152, 0L);
   Words.put64(b, ((int) l5) - 58160, 0L);
   Core5.f155(m, l5 + 752L, l19, l7, l8);
   l18 = 1;
   if ((b[((int) l5) - 58160] & 0xff) != 1) { exit = 3; break PART; }
   l10 = Words.get64(b, ((int) l5) - 58152);
   Core2.f53(m, l1, l7, l8 - (l15 = Words.get64(b, ((int) l5) - 58144)));
   Words.put64(b, ((int) l5) - 58272, 0L);
   Words.put64(b, ((int) l5) - 58264, 0L);
   Words.put64(b, ((int) l5) - 58256, 0L);
   Words.put64(b, ((int) l5) - 58248, 0L);
   l11 = Words.get64(b, State.far((int) (l4 = (l20 & 0xffffffffL) << 3L), 102544));
   l6 = Words.get64(b, State.far((int) l4, 102288));
   l19 = 0;
   l4 = 0L;
   l20 = 0;
   L31: while (true) {
    Words.put64(b, ((int) l5) - 58080, l0 = l15);
    Words.put64(b, ((int) l5) - 58088, l3 = l10);
    b[((int) l5) - 58089] = (byte) l20;
    b[((int) l5) - 58090] = (byte) (l16 = l19);
    Words.put32(b, ((int) l5) - 58096, (int) l4);
    Words.put16(b, ((int) l5) - 58092, (short) (l4 >>> 32L));
    Core5.f156(m, l5 + 640L, b[((int) (l4 = l11 + (l2 << 1L))) - 58912] & 0xff, b[((int) (l4 + 1L)) - 58912] & 0xff, l5 + 816L);
    if ((b[((int) l5) - 58272] & 0xff) != 1) { exit = 3; break PART; }
    l15 = Words.get64(b, ((int) l5) - 58248);
    l10 = Words.get64(b, ((int) l5) - 58256);
    l20 = b[((int) l5) - 58257] & 0xff;
    l19 = b[((int) l5) - 58258] & 0xff;
    L32: {
     L33: {
      L34: {
       switch ((int) (b[((int) l4) - 58912] & 0xffL)) {
       case 1: break L33;
       case 2: case 3: break L32;
       default: break L34;
       }
      }
      L35: {
       if ((b[((int) (l4 + 1L)) - 58912] & 0xff) != 9) { break L35; }
       Core2.f53(m, l1, l3, l0 - l15);
       break L32;
      }
      Words.put64(b, ((int) l5) - 58456, 0L);
      Words.put64(b, ((int) l5) - 58464, 0L);
      Words.put64(b, ((int) l5) - 58472, 0L);
      Words.put64(b, ((int) l5) - 58480, 0L);
      Core4.f132(m, l5 + 8L, l16 & 1, l3, l0);
      l4 = Words.get64(b, ((int) l5) - 58904);
      Core2.f53(m, l1, l3, l0 - (l9 = Words.get64(b, ((int) l5) - 58896)));
      Core4.f131(m, l5 + 432L, l4, l9);
      l4 = l9 = Words.get64(b, ((int) l5) - 58480);
      l3 = l14 = Words.get64(b, ((int) l5) - 58472);
      L36: {
       L37: while (true) {
        if (l3 == 0L) { break L36; }
        l16 = (l17 = (int) b[((int) l4) - 58912]) & 255;
        l0 = 1L;
        L38: {
         if (l17 > -1) { break L38; }
         l21 = (b[((int) l4) - 58911] & 0xff) & 63;
         L39: {
          if (l17 + Integer.MIN_VALUE > 2147483615) { break L39; }
          l16 = ((l16 << 6) & 1984) | l21;
          l0 = 2L;
          break L38;
         }
         l22 = (b[((int) l4) - 58910] & 0xff) & 63;
         L40: {
          if (l17 + Integer.MIN_VALUE > 2147483631) { break L40; }
          l16 = ((l21 << 6) | ((l16 << 12) & 61440)) | l22;
          l0 = 3L;
          break L38;
         }
         l16 = ((l22 << 6) | ((l21 << 12) | ((l16 << 18) & 1835008))) | ((b[((int) l4) - 58909] & 0xff) & 63);
         l0 = 4L;
        }
        L41: {
         if ((l16 + -48) + Integer.MIN_VALUE < -2147483638) { break L41; }
         l3 = l3 - l0;
         l4 = l4 + l0;
         if ((l16 + -65296) + Integer.MIN_VALUE > -2147483639) { continue L37; }
        }
        break L37;
       }
       Core2.f53(m, l1, l9, l14);
       break L32;
      }
      L42: {
       if ((f267(m, 1, l9, l14) & 1) != 0) { break L42; }
       Core2.f53(m, l1, l9, l14);
       break L32;
      }
      final int t43 = f282(m, l1, 1, l9, l14);
      break L32;
     }
     Core2.f53(m, l1, l3, l0 - l15);
    }
    l4 = (Words.get32(b, ((int) l5) - 58264) & 0xffffffffL) | ((Words.get16(b, ((int) (l5 + 652L)) - 58912) & 0xffffL) << 32L);
    if ((l2 = l2 + 1L) != l6) { continue L31; }
    exit = 3; break PART;
   }
  }
 }
 m.kept[0] = l0;
 m.kept[1] = l2;
 m.kept[2] = l3;
 m.kept[3] = l4;
 m.kept[4] = l6;
 m.kept[5] = l9;
 m.kept[6] = l10;
 m.kept[7] = l11;
 m.kept[8] = l14;
 m.kept[9] = l15;
 m.kept[10] = l16;
 m.kept[11] = l17;
 m.kept[12] = l18;
 m.kept[13] = l19;
 m.kept[14] = l20;
 m.kept[15] = l21;
 m.kept[16] = l22;
 return exit;
}

static int f279_2(State m, long l0, long l1, long l2, long l3, long l5, long l13, long l14, int l16, int l17, int l18, int l19, int l23) {
 final byte[] b = m.bytes;
 int exit = 0;
 PART: {
  L48: {
   L49: {
    L50: {
     L51: while (true) {
      if (l2 == 0L) { break L50; }
      l18 = (l16 = (int) b[((int) l0) - 58912]) & 255;
      l3 = 1L;
      L52: {
       if (l16 > -1) { break L52; }
       l17 = (b[((int) l0) - 58911] & 0xff) & 63;
       L53: {
        if (l16 + Integer.MIN_VALUE > 2147483615) { break L53; }
        l18 = ((l18 << 6) & 1984) | l17;
        l3 = 2L;
        break L52;
       }
       l19 = (b[((int) l0) - 58910] & 0xff) & 63;
       L54: {
        if (l16 + Integer.MIN_VALUE > 2147483631) { break L54; }
        l18 = ((l17 << 6) | ((l18 << 12) & 61440)) | l19;
        l3 = 3L;
        break L52;
       }
       l18 = ((l19 << 6) | ((l17 << 12) | ((l18 << 18) & 1835008))) | ((b[((int) l0) - 58909] & 0xff) & 63);
       l3 = 4L;
      }
      L55: {
       if ((l18 + -48) + Integer.MIN_VALUE < -2147483638) { break L55; }
       l2 = l2 - l3;
       l0 = l0 + l3;
       if ((l18 + -65296) + Integer.MIN_VALUE > -2147483639) { continue L51; }
      }
      break L51;
     }
     if ((l23 & 255) == 0) { break L49; }
     l0 = l13;
     l2 = l14;
     L56: while (true) {
      if (l2 == 0L) { break L49; }
      l18 = (l16 = (int) b[((int) l0) - 58912]) & 255;
      l3 = 1L;
      L57: {
       if (l16 > -1) { break L57; }
       l17 = (b[((int) l0) - 58911] & 0xff) & 63;
       L58: {
        if (l16 + Integer.MIN_VALUE > 2147483615) { break L58; }
        l18 = ((l18 << 6) & 1984) | l17;
        l3 = 2L;
        break L57;
       }
       l19 = (b[((int) l0) - 58910] & 0xff) & 63;
       L59: {
        if (l16 + Integer.MIN_VALUE > 2147483631) { break L59; }
        l18 = ((l17 << 6) | ((l18 << 12) & 61440)) | l19;
        l3 = 3L;
        break L57;
       }
       l18 = ((l19 << 6) | ((l17 << 12) | ((l18 << 18) & 1835008))) | ((b[((int) l0) - 58909] & 0xff) & 63);
       l3 = 4L;
      }
      Core2.f61(m, l5 + 120L, l18);
      l2 = l2 - l3;
      l0 = l0 + l3;
      if ((b[((int) l5) - 58792] & 0xff) != 1) { continue L56; }
      if (((b[((int) l5) - 58791] & 0xff) & 255) + Integer.MIN_VALUE <= -2147483647) { continue L56; }
      break L56;
     }
    }
    L60: {
     if ((l23 & 255) == 0) { break L60; }
     Words.put64(b, ((int) l5) - 58424, 0L);
     Words.put64(b, ((int) l5) - 58432, 0L);
     Words.put64(b, ((int) l5) - 58440, 0L);
     Words.put64(b, ((int) l5) - 58448, 0L);
     Words.put64(b, ((int) l5) - 58456, 0L);
     Words.put64(b, ((int) l5) - 58464, 0L);
     Words.put64(b, ((int) l5) - 58472, 0L);
     Words.put64(b, ((int) l5) - 58480, 0L);
     Core3.f80(m, l5 + 432L, l13, l14, 1);
     Words.put64(b, ((int) l5) - 58096, Words.get64(b, ((int) l5) - 58464));
     Words.put64(b, ((int) l5) - 58088, Words.get64(b, ((int) l5) - 58456));
     Words.put64(b, ((int) l5) - 58080, Words.get64(b, ((int) l5) - 58448));
     Words.put64(b, ((int) l5) - 58072, Words.get64(b, ((int) l5) - 58440));
     Words.put64(b, ((int) l5) - 58064, Words.get64(b, ((int) l5) - 58432));
     Words.put64(b, ((int) l5) - 58056, Words.get64(b, ((int) l5) - 58424));
     L61: {
      if ((b[((int) l5) - 58480] & 0xff) != 0) { break L61; }
      m.fill((int) (l5 + 432L), 0, (int) 80L);
      Core2.f52(m, l5 + 104L, l5 + 432L, l5 + 816L);
      Core2.f53(m, l1, Words.get64(b, ((int) l5) - 58808), Words.get64(b, ((int) l5) - 58800));
      break L48;
     }
     l18 = 0;
     exit = 1; break PART;
    }
    if ((f282(m, l1, 1, l13, l14) & 1) != 0) { break L48; }
    l18 = 0;
    exit = 1; break PART;
   }
   Core2.f53(m, l1, l13, l14);
  }
 }
 m.kept[0] = l0;
 m.kept[1] = l2;
 m.kept[2] = l3;
 m.kept[3] = l16;
 m.kept[4] = l17;
 m.kept[5] = l18;
 m.kept[6] = l19;
 return exit;
}

static int f279(State m, long l0, long l1, long l2, long l3, long l4) {
 final byte[] b = m.bytes;
 long l5 = 0;
 long l6 = 0;
 long l7 = 0;
 long l8 = 0;
 long l9 = 0;
 long l10 = 0;
 long l11 = 0;
 long l12 = 0;
 long l13 = 0;
 long l14 = 0;
 long l15 = 0;
 int l16 = 0;
 int l17 = 0;
 int l18 = 0;
 int l19 = 0;
 int l20 = 0;
 int l21 = 0;
 int l22 = 0;
 int l23 = 0;
 m.g0 = l5 = m.g0 - 896L;
 Words.put16(b, ((int) (l5 = l5)) - 58488, (short) (Words.get16(b, ((int) l0) - 58904) & 0xffff));
 Words.put64(b, ((int) l5) - 58496, Words.get64(b, ((int) l0) - 58912));
 Words.put64(b, ((int) l5) - 58528, Words.get64(b, ((int) l4) - 58896));
 Words.put64(b, ((int) l5) - 58520, Words.get64(b, ((int) l4) - 58888));
 Words.put64(b, ((int) l5) - 58512, Words.get64(b, ((int) l4) - 58880));
 Words.put64(b, ((int) l5) - 58504, Words.get64(b, ((int) l4) - 58872));
 L1: {
  L2: {
   L3: {
    L4: {
     if (l5 < 16L) { break L4; }
     l0 = Words.get64(b, ((int) l4) - 58904);
     l6 = Words.get64(b, ((int) l4) - 58912);
     l16 = b[((int) l5) - 58495] & 0xff;
     l17 = b[((int) l5) - 58496] & 0xff;
     l18 = 0;
     m.fill((int) (l5 + 432L), 0, (int) 128L);
     Core4.f119(m, l5 + 432L, l2, l3, l7 = l2 + l0, l8 = l3 - l0, l17, l16);
     Words.put32(b, ((int) l5) - 58536, Words.get32(b, ((int) l5) - 58462));
     Words.put16(b, ((int) l5) - 58532, (short) (Words.get16(b, ((int) l5) - 58458) & 0xffff));
     Words.put64(b, ((int) l5) - 58552, Words.get64(b, ((int) l5) - 58408));
     Words.put64(b, ((int) l5) - 58544, Words.get64(b, ((int) l5) - 58400));
     l9 = Words.get64(b, ((int) l5) - 58456);
     l10 = Words.get64(b, ((int) l5) - 58448);
     l11 = Words.get64(b, ((int) l5) - 58440);
     l12 = Words.get64(b, ((int) l5) - 58432);
     l13 = Words.get64(b, ((int) l5) - 58424);
     l14 = Words.get64(b, ((int) l5) - 58416);
     l16 = b[((int) l5) - 58480] & 0xff;
     l17 = b[((int) l5) - 58472] & 0xff;
     l19 = b[((int) l5) - 58464] & 0xff;
     l20 = b[((int) l5) - 58463] & 0xff;
     Words.put64(b, ((int) l5) - 58576, Words.get64(b, ((int) l5) - 58374));
     Words.put64(b, ((int) l5) - 58568, Words.get64(b, ((int) l5) - 58366));
     Words.put64(b, ((int) l5) - 58562, Words.get64(b, ((int) l5) - 58360));
     Words.put64(b, ((int) l5) - 58624, l6);
     Words.put64(b, ((int) l5) - 58616, l0);
     Words.put64(b, ((int) l5) - 58608, Words.get64(b, ((int) l5) - 58528));
     Words.put64(b, ((int) l5) - 58600, Words.get64(b, ((int) l5) - 58520));
     Words.put64(b, ((int) l5) - 58592, Words.get64(b, ((int) l5) - 58512));
     Words.put64(b, ((int) l5) - 58584, Words.get64(b, ((int) l5) - 58504));
     l4 = Words.get64(b, ((int) l5) - 58392);
     l15 = Words.get64(b, ((int) l5) - 58384);
     l21 = b[((int) l5) - 58376] & 0xff;
     l22 = b[((int) l5) - 58375] & 0xff;
     b[((int) l5) - 58735] = (byte) l20;
     b[((int) l5) - 58736] = (byte) l19;
     Words.put64(b, ((int) l5) - 58744, l17 & 0xffffffffL);
     Words.put64(b, ((int) l5) - 58752, (l16 & 0xffffffffL) & 255L);
     Words.put16(b, ((int) l5) - 58730, (short) (Words.get16(b, ((int) l5) - 58532) & 0xffff));
     Words.put32(b, ((int) l5) - 58734, Words.get32(b, ((int) l5) - 58536));
     Words.put64(b, ((int) l5) - 58688, l14);
     Words.put64(b, ((int) l5) - 58696, l13);
     Words.put64(b, ((int) l5) - 58704, l12);
     Words.put64(b, ((int) l5) - 58712, l11);
     Words.put64(b, ((int) l5) - 58720, l10);
     Words.put64(b, ((int) l5) - 58728, l9);
     Words.put64(b, ((int) l5) - 58672, Words.get64(b, ((int) l5) - 58544));
     Words.put64(b, ((int) l5) - 58680, Words.get64(b, ((int) l5) - 58552));
     b[((int) l5) - 58647] = (byte) l22;
     b[((int) l5) - 58648] = (byte) l21;
     Words.put64(b, ((int) l5) - 58656, l15);
     Words.put64(b, ((int) l5) - 58664, l4);
     Words.put64(b, ((int) l5) - 58632, Words.get64(b, ((int) l5) - 58562));
     Words.put64(b, ((int) l5) - 58638, Words.get64(b, ((int) l5) - 58568));
     Words.put64(b, ((int) l5) - 58646, Words.get64(b, ((int) l5) - 58576));
     if (f264(m, l5 + 416L, l2, l3, l5 + 288L, l5 + 160L) == 0) { break L1; }
     l3 = Words.get64(b, ((int) l5) - 58494);
     Words.put64(b, ((int) l5) - 58312, 0L);
     Words.put64(b, ((int) l5) - 58320, 0L);
     Words.put64(b, ((int) l5) - 58328, 0L);
     Words.put64(b, ((int) l5) - 58336, 0L);
     Words.put64(b, ((int) l5) - 58344, 0L);
     Words.put64(b, ((int) l5) - 58352, 0L);
     L5: {
      if ((l16 & 255) != 0) { break L5; }
      l18 = 0;
      break L1;
     }
     l23 = (int) (l3 >>> 32L);
     l16 = (int) (l3 >>> 24L);
     final int x44 = f279_1(m, l0, l1, l2, l3, l4, l5, l6, l7, l8, l9, l10, l11, l14, l15, l16, l17, l18, l19, l20, l21, l22, l23);
     l0 = m.kept[0];
     l2 = m.kept[1];
     l3 = m.kept[2];
     l4 = m.kept[3];
     l6 = m.kept[4];
     l9 = m.kept[5];
     l10 = m.kept[6];
     l11 = m.kept[7];
     l14 = m.kept[8];
     l15 = m.kept[9];
     l16 = (int) m.kept[10];
     l17 = (int) m.kept[11];
     l18 = (int) m.kept[12];
     l19 = (int) m.kept[13];
     l20 = (int) m.kept[14];
     l21 = (int) m.kept[15];
     l22 = (int) m.kept[16];
     switch (x44) {
     case 1: break L2;
     case 2: break L3;
     case 3: break L1;
     }
     L45: {
      if ((l19 & 255) + Integer.MIN_VALUE > -2147483646) { break L45; }
      Words.put64(b, ((int) l5) - 58456, l14);
      Words.put64(b, ((int) l5) - 58464, l13);
      Words.put64(b, ((int) l5) - 58472, l12);
      Words.put64(b, ((int) l5) - 58480, l11);
      Words.put64(b, ((int) l5) - 58448, Words.get64(b, ((int) l5) - 58552));
      Words.put64(b, ((int) l5) - 58440, Words.get64(b, ((int) l5) - 58544));
      Core2.f53(m, l1, l9, l10);
      l18 = 0;
      if ((f283(m, l3, l5 + 432L, l1) & 1) == 0) { break L1; }
      Core2.f53(m, l1, l4, l15);
      l18 = 1;
      break L1;
     }
     L46: {
      if ((l3 & 16777216L) != 0L) { break L46; }
      b[((int) l5) - 58271] = (byte) l20;
      b[((int) l5) - 58272] = (byte) l19;
      Words.put32(b, ((int) l5) - 58270, Words.get32(b, ((int) l5) - 58536));
      Words.put16(b, ((int) l5) - 58266, (short) (Words.get16(b, ((int) l5) - 58532) & 0xffff));
      Words.put64(b, ((int) l5) - 58224, l14);
      Words.put64(b, ((int) l5) - 58232, l13);
      Words.put64(b, ((int) l5) - 58240, l12);
      Words.put64(b, ((int) l5) - 58248, l11);
      Words.put64(b, ((int) l5) - 58256, l10);
      Words.put64(b, ((int) l5) - 58264, l9);
      Words.put64(b, ((int) l5) - 58216, Words.get64(b, ((int) l5) - 58552));
      Words.put64(b, ((int) l5) - 58208, Words.get64(b, ((int) l5) - 58544));
      b[((int) l5) - 58183] = (byte) l22;
      b[((int) l5) - 58184] = (byte) l21;
      Words.put64(b, ((int) l5) - 58192, l15);
      Words.put64(b, ((int) l5) - 58200, l4);
      Words.put64(b, ((int) l5) - 58168, Words.get64(b, ((int) l5) - 58562));
      Words.put64(b, ((int) l5) - 58174, Words.get64(b, ((int) l5) - 58568));
      Words.put64(b, ((int) l5) - 58182, Words.get64(b, ((int) l5) - 58576));
      if (Core4.f123(m, l6, l0, l5 + 640L) == 0) { break L46; }
      l18 = 0;
      break L1;
     }
     l0 = l13;
     l2 = l14;
     L47: {
      if ((l3 & 281474976710656L) == 0L) { break L47; }
      l0 = l13;
      l2 = l14;
      if (((l21 | l22) & 255) == 0) { break L47; }
      Words.put64(b, ((int) l5) - 58160, 0L);
      Words.put64(b, ((int) l5) - 58152, 0L);
      Words.put64(b, ((int) l5) - 58144, 0L);
      Words.put64(b, ((int) l5) - 58136, 0L);
      Words.put64(b, ((int) l5) - 58128, 0L);
      Words.put64(b, ((int) l5) - 58120, 0L);
      Words.put64(b, ((int) l5) - 58112, 0L);
      Words.put64(b, ((int) l5) - 58104, 0L);
      b[((int) l5) - 58479] = (byte) l20;
      b[((int) l5) - 58480] = (byte) l19;
      Words.put32(b, ((int) l5) - 58478, Words.get32(b, ((int) l5) - 58536));
      Words.put16(b, ((int) l5) - 58474, (short) (Words.get16(b, ((int) l5) - 58532) & 0xffff));
      Words.put64(b, ((int) l5) - 58432, l14);
      Words.put64(b, ((int) l5) - 58440, l13);
      Words.put64(b, ((int) l5) - 58448, l12);
      Words.put64(b, ((int) l5) - 58456, l11);
      Words.put64(b, ((int) l5) - 58464, l10);
      Words.put64(b, ((int) l5) - 58472, l9);
      Words.put64(b, ((int) l5) - 58408, l4);
      Words.put64(b, ((int) l5) - 58400, l15);
      b[((int) l5) - 58391] = (byte) l22;
      b[((int) l5) - 58392] = (byte) l21;
      Words.put64(b, ((int) l5) - 58416, Words.get64(b, ((int) l5) - 58544));
      Words.put64(b, ((int) l5) - 58424, Words.get64(b, ((int) l5) - 58552));
      Words.put64(b, ((int) l5) - 58390, Words.get64(b, ((int) l5) - 58576));
      Words.put64(b, ((int) l5) - 58382, Words.get64(b, ((int) l5) - 58568));
      Words.put64(b, ((int) l5) - 58376, Words.get64(b, ((int) l5) - 58562));
      Core4.f124(m, l5 + 752L, l5 + 432L);
      if ((l18 = b[((int) l5) - 58160] & 0xff) != 1) { break L1; }
      m.fill((int) (l5 + 816L), 0, (int) 80L);
      Core2.f52(m, l5 + 128L, l5 + 816L, l5 + 768L);
      Core2.f53(m, l1, Words.get64(b, ((int) l5) - 58784), Words.get64(b, ((int) l5) - 58776));
      Core2.f53(m, l1, 99434L, 3L);
      break L1;
     }
     final int x62 = f279_2(m, l0, l1, l2, l3, l5, l13, l14, l16, l17, l18, l19, l23);
     l0 = m.kept[0];
     l2 = m.kept[1];
     l3 = m.kept[2];
     l16 = (int) m.kept[3];
     l17 = (int) m.kept[4];
     l18 = (int) m.kept[5];
     l19 = (int) m.kept[6];
     switch (x62) {
     case 1: break L1;
     }
     l18 = 1;
     if (l15 == 0L) { break L1; }
     L63: while (true) {
      l16 = (l17 = (int) b[((int) l4) - 58912]) & 255;
      l0 = 1L;
      L64: {
       if (l17 > -1) { break L64; }
       l19 = (b[((int) l4) - 58911] & 0xff) & 63;
       L65: {
        if (l17 + Integer.MIN_VALUE > 2147483615) { break L65; }
        l16 = ((l16 << 6) & 1984) | l19;
        l0 = 2L;
        break L64;
       }
       l20 = (b[((int) l4) - 58910] & 0xff) & 63;
       L66: {
        if (l17 + Integer.MIN_VALUE > 2147483631) { break L66; }
        l16 = ((l19 << 6) | ((l16 << 12) & 61440)) | l20;
        l0 = 3L;
        break L64;
       }
       l16 = ((l20 << 6) | ((l19 << 12) | ((l16 << 18) & 1835008))) | ((b[((int) l4) - 58909] & 0xff) & 63);
       l0 = 4L;
      }
      l15 = l15 - l0;
      L67: {
       L68: {
        L69: {
         L70: {
          L71: {
           L72: {
            L73: {
             if (l16 > 20107) { break L73; }
             if ((l17 = l16 + -19968) + Integer.MIN_VALUE <= -2147483612) { break L72; }
             break L70;
            }
            L74: {
             if (l16 > 22234) { break L74; }
             if ((l17 = l16 + -20841) + Integer.MIN_VALUE > -2147483644) { break L71; }
             if (((1 << l17) & 21) == 0) { break L71; }
             break L69;
            }
            if (l16 == 38646) { break L69; }
            if (l16 != 22235) { break L68; }
            break L69;
           }
           if (((1L << (l17 & 0xffffffffL)) & 68719477257L) == 0L) { break L70; }
           break L69;
          }
          switch (l16 + -20108) {
          case 0: case 8: break L69;
          default: break L68;
          }
         }
         if (l16 == 12295) { break L69; }
         if (l16 != 20061) { break L68; }
        }
        Core2.f63(m, l5 + 96L, l16);
        if (((l16 = b[((int) l5) - 58815] & 0xff) & 255) == 0) { break L68; }
        if (((b[((int) l5) - 58816] & 0xff) & 1) == 0) { break L68; }
        L75: {
         L76: {
          if ((l16 & 255) + Integer.MIN_VALUE <= -2147483639) { break L76; }
          l3 = 83372L;
          l2 = 0L;
          break L75;
         }
         l3 = Words.get64(b, ((int) ((((l16 & 0xffffffffL) & 255L) << 3L) + 102208L)) - 58912);
         l2 = 1L;
        }
        Core2.f53(m, l1, l3, l2);
        break L67;
       }
       Core2.f53(m, l1, l4, l0);
      }
      l4 = l4 + l0;
      if (l15 != 0L) { continue L63; }
      break L1;
     }
    }
    throw State.trap();
   }
   Words.put64(b, ((int) l5) - 58344, l0);
   Words.put64(b, ((int) l5) - 58352, l6);
   Words.put64(b, ((int) l5) - 58336, Words.get64(b, ((int) l5) - 58528));
   Words.put64(b, ((int) l5) - 58328, Words.get64(b, ((int) l5) - 58520));
   Words.put64(b, ((int) l5) - 58320, Words.get64(b, ((int) l5) - 58512));
   Words.put64(b, ((int) l5) - 58312, Words.get64(b, ((int) l5) - 58504));
   l18 = f283(m, l3, l5 + 560L, l1);
   break L1;
  }
  l18 = 0;
  m.fill((int) (l5 + 432L), 0, (int) 112L);
  Core2.f79(m, l5 + 432L, l10, l11, l4, l15);
  if ((b[((int) l5) - 58480] & 0xff) != 1) { break L1; }
  L77: {
   if ((l16 & 1) != 0) { break L77; }
   b[((int) l5) - 58271] = (byte) l20;
   b[((int) l5) - 58272] = (byte) l19;
   Words.put32(b, ((int) l5) - 58270, Words.get32(b, ((int) l5) - 58536));
   Words.put16(b, ((int) l5) - 58266, (short) (Words.get16(b, ((int) l5) - 58532) & 0xffff));
   Words.put64(b, ((int) l5) - 58224, l14);
   Words.put64(b, ((int) l5) - 58232, l13);
   Words.put64(b, ((int) l5) - 58240, l12);
   Words.put64(b, ((int) l5) - 58248, l11);
   Words.put64(b, ((int) l5) - 58256, l10);
   Words.put64(b, ((int) l5) - 58264, l9);
   Words.put64(b, ((int) l5) - 58216, Words.get64(b, ((int) l5) - 58552));
   Words.put64(b, ((int) l5) - 58208, Words.get64(b, ((int) l5) - 58544));
   b[((int) l5) - 58183] = (byte) l22;
   b[((int) l5) - 58184] = (byte) l21;
   Words.put64(b, ((int) l5) - 58192, l15);
   Words.put64(b, ((int) l5) - 58200, l4);
   Words.put64(b, ((int) l5) - 58176, Words.get64(b, ((int) l5) - 58570));
   Words.put64(b, ((int) l5) - 58182, Words.get64(b, ((int) l5) - 58576));
   if (Core4.f125(m, l5 + 640L) != 0) { break L1; }
  }
  L78: {
   if (f269(m, l10, l11, l4, l15) == 0) { break L78; }
   if (f270(m, l23, l10, l11, l4, l15) == 0) { break L1; }
  }
  Words.put64(b, ((int) l5) - 58424, 0L);
  Words.put64(b, ((int) l5) - 58432, 0L);
  Words.put64(b, ((int) l5) - 58440, 0L);
  Words.put64(b, ((int) l5) - 58448, 0L);
  Words.put64(b, ((int) l5) - 58456, 0L);
  Words.put64(b, ((int) l5) - 58464, 0L);
  Words.put64(b, ((int) l5) - 58472, 0L);
  Words.put64(b, ((int) l5) - 58480, 0L);
  Core3.f80(m, l5 + 432L, l4, l15, 1);
  L79: {
   L80: {
    if ((b[((int) l5) - 58480] & 0xff) != 0) { break L80; }
    if (((b[((int) l5) - 58432] & 0xff) & 255) != 2) { break L80; }
    Words.put64(b, ((int) l5) - 58424, 0L);
    Words.put64(b, ((int) l5) - 58432, 0L);
    Words.put64(b, ((int) l5) - 58440, 0L);
    Words.put64(b, ((int) l5) - 58448, 0L);
    Words.put64(b, ((int) l5) - 58456, 0L);
    Words.put64(b, ((int) l5) - 58464, 0L);
    Words.put64(b, ((int) l5) - 58472, 0L);
    Words.put64(b, ((int) l5) - 58480, 0L);
    Core3.f80(m, l5 + 432L, l10, l11, 1);
    l0 = 1L;
    l3 = 77254L;
    if ((b[((int) l5) - 58480] & 0xff) != 0) { break L79; }
    if (((b[((int) l5) - 58432] & 0xff) & 255) != 2) { break L79; }
   }
   Core3.f81(m, l5 + 144L, l10, l11, l4, l15);
   l0 = Words.get64(b, ((int) l5) - 58760);
   l3 = Words.get64(b, ((int) l5) - 58768);
  }
  if ((f284(m, l1, l23, l10, l11, l3, l0) & 1) == 0) { break L1; }
  Words.put32(b, ((int) l5) - 58272, 0);
  L81: {
   L82: {
    if ((l18 = (int) l14) + Integer.MIN_VALUE > -2147483521) { break L82; }
    b[((int) l5) - 58272] = (byte) l14;
    l0 = 1L;
    break L81;
   }
   L83: {
    if (l18 + Integer.MIN_VALUE > -2147481601) { break L83; }
    b[((int) l5) - 58271] = (byte) ((l18 & 63) | 128);
    b[((int) l5) - 58272] = (byte) ((l18 >>> 6) | 192);
    l0 = 2L;
    break L81;
   }
   L84: {
    if (l18 + Integer.MIN_VALUE > -2147418113) { break L84; }
    b[((int) l5) - 58270] = (byte) ((l18 & 63) | 128);
    b[((int) l5) - 58272] = (byte) ((l18 >>> 12) | 224);
    b[((int) l5) - 58271] = (byte) (((l18 >>> 6) & 63) | 128);
    l0 = 3L;
    break L81;
   }
   b[((int) l5) - 58269] = (byte) ((l18 & 63) | 128);
   b[((int) l5) - 58272] = (byte) ((l18 >>> 18) + -16);
   b[((int) l5) - 58270] = (byte) (((l18 >>> 6) & 63) | 128);
   b[((int) l5) - 58271] = (byte) (((l18 >>> 12) & 63) | 128);
   l0 = 4L;
  }
  Core2.f53(m, l1, l5 + 640L, l0);
  l0 = 0L;
  Words.put64(b, ((int) l5) - 58424, 0L);
  Words.put64(b, ((int) l5) - 58432, 0L);
  Words.put64(b, ((int) l5) - 58440, 0L);
  Words.put64(b, ((int) l5) - 58448, 0L);
  Words.put64(b, ((int) l5) - 58456, 0L);
  Words.put64(b, ((int) l5) - 58464, 0L);
  Words.put64(b, ((int) l5) - 58472, 0L);
  Words.put64(b, ((int) l5) - 58480, 0L);
  Core3.f80(m, l5 + 432L, l10, l11, 1);
  l3 = 83372L;
  L85: {
   if ((b[((int) l5) - 58480] & 0xff) != 0) { break L85; }
   if (((b[((int) l5) - 58432] & 0xff) & 255) != 2) { break L85; }
   Words.put64(b, ((int) l5) - 58424, 0L);
   Words.put64(b, ((int) l5) - 58432, 0L);
   Words.put64(b, ((int) l5) - 58440, 0L);
   Words.put64(b, ((int) l5) - 58448, 0L);
   Words.put64(b, ((int) l5) - 58456, 0L);
   Words.put64(b, ((int) l5) - 58464, 0L);
   Words.put64(b, ((int) l5) - 58472, 0L);
   Words.put64(b, ((int) l5) - 58480, 0L);
   Core3.f80(m, l5 + 432L, l4, l15, 1);
   l3 = ((l18 = ((((b[((int) l5) - 58480] & 0xff) & 255) != 0) | (((b[((int) l5) - 58432] & 0xff) & 255) != 2)) ? 1 : 0) != 0) ? 77254L : 83372L;
   l0 = l18 & 0xffffffffL;
  }
  l18 = f284(m, l1, l23, l4, l15, l3, l0);
 }
 m.g0 = l5 + 896L;
 return l18;
}

static void f280(State m, long l0, int l1) {
 final byte[] b = m.bytes;
 long l2 = 0;
 m.g0 = l2 = m.g0 - 144L;
 L1: {
  if ((l2 = l2) < 16L) { break L1; }
  Core2.f53(m, l0, 77252L, 1L);
  L2: {
   L3: {
    if ((l1 & 255) + Integer.MIN_VALUE > -2147483639) { break L3; }
    Core2.f53(m, l0, 98132L, 1L);
    break L2;
   }
   Core2.f53(m, l0, 83372L, 0L);
  }
  Words.put64(b, ((int) l2) - 58776, 0L);
  Words.put64(b, ((int) l2) - 58783, 0L);
  Words.put64(b, ((int) l2) - 58792, 0L);
  Words.put64(b, ((int) l2) - 58800, 1L);
  Words.put64(b, ((int) l2) - 58808, 0L);
  b[((int) l2) - 58784] = (byte) 0;
  Words.put64(b, ((int) l2) - 58816, (l1 & 0xffffffffL) & 255L);
  m.fill((int) (l2 + 16L), 0, (int) 80L);
  Core2.f52(m, l2, l2 + 16L, l2 + 96L);
  Core2.f53(m, l0, Words.get64(b, ((int) l2) - 58912), Words.get64(b, ((int) l2) - 58904));
  m.g0 = l2 + 144L;
  return;
 }
 throw State.trap();
}

static void f281(State m, long l0, int l1) {
 final byte[] b = m.bytes;
 long l2 = 0;
 m.g0 = l2 = m.g0 - 144L;
 L1: {
  if ((l2 = l2) < 16L) { break L1; }
  Core2.f53(m, l0, 99432L, 1L);
  L2: {
   L3: {
    if ((l1 & 255) + Integer.MIN_VALUE > -2147483639) { break L3; }
    Core2.f53(m, l0, 98132L, 1L);
    break L2;
   }
   Core2.f53(m, l0, 83372L, 0L);
  }
  Words.put64(b, ((int) l2) - 58776, 0L);
  Words.put64(b, ((int) l2) - 58783, 0L);
  Words.put64(b, ((int) l2) - 58792, 0L);
  Words.put64(b, ((int) l2) - 58800, 1L);
  Words.put64(b, ((int) l2) - 58808, 0L);
  b[((int) l2) - 58784] = (byte) 0;
  Words.put64(b, ((int) l2) - 58816, (l1 & 0xffffffffL) & 255L);
  m.fill((int) (l2 + 16L), 0, (int) 80L);
  Core2.f52(m, l2, l2 + 16L, l2 + 96L);
  Core2.f53(m, l0, Words.get64(b, ((int) l2) - 58912), Words.get64(b, ((int) l2) - 58904));
  m.g0 = l2 + 144L;
  return;
 }
 throw State.trap();
}

static int f282(State m, long l0, int l1, long l2, long l3) {
 final byte[] b = m.bytes;
 long l4 = 0;
 long l5 = 0;
 long l6 = 0;
 int l7 = 0;
 int l8 = 0;
 int l9 = 0;
 int l10 = 0;
 m.g0 = l4 = m.g0 - 48L;
 L1: {
  L2: {
   L3: {
    if ((l4 = l4) < 16L) { break L3; }
    Words.put64(b, ((int) l4) - 58872, 0L);
    Words.put64(b, ((int) l4) - 58880, 0L);
    Words.put64(b, ((int) l4) - 58888, 0L);
    Core7.f242(m, l4 + 24L, l2, l3);
    L4: {
     if ((b[((int) l4) - 58888] & 0xff) != 1) { break L4; }
     l5 = Words.get64(b, ((int) l4) - 58880);
     Core2.f53(m, l0, l2, l3 - (l6 = Words.get64(b, ((int) l4) - 58872)));
     f285(m, l4, l0, l1, l5, l6);
     l1 = b[((int) l4) - 58911] & 0xff;
     break L1;
    }
    if (l3 == 0L) { break L2; }
    l8 = (l7 = (int) b[((int) l2) - 58912]) & 255;
    l5 = 1L;
    L5: {
     if (l7 > -1) { break L5; }
     l9 = (b[((int) l2) - 58911] & 0xff) & 63;
     L6: {
      if (l7 + Integer.MIN_VALUE > 2147483615) { break L6; }
      l8 = ((l8 << 6) & 1984) | l9;
      l5 = 2L;
      break L5;
     }
     l10 = (b[((int) l2) - 58910] & 0xff) & 63;
     L7: {
      if (l7 + Integer.MIN_VALUE > 2147483631) { break L7; }
      l8 = ((l9 << 6) | ((l8 << 12) & 61440)) | l10;
      l5 = 3L;
      break L5;
     }
     l8 = ((l10 << 6) | ((l9 << 12) | ((l8 << 18) & 1835008))) | ((b[((int) l2) - 58909] & 0xff) & 63);
     l5 = 4L;
    }
    L8: {
     L9: {
      if (l8 > 35999) { break L9; }
      if (l8 == 45) { break L8; }
      if (l8 == 8722) { break L8; }
      break L2;
     }
     if (l8 == 36000) { break L8; }
     if (l8 == 65293) { break L8; }
     if (l8 != 36127) { break L2; }
    }
    Core2.f53(m, l0, 77252L, 1L);
    f285(m, l4 + 16L, l0, l1, l2 + l5, l3 - l5);
    l1 = b[((int) l4) - 58895] & 0xff;
    break L1;
   }
   throw State.trap();
  }
  f285(m, l4 + 8L, l0, l1, l2, l3);
  l1 = b[((int) l4) - 58903] & 0xff;
 }
 m.g0 = l4 + 48L;
 return l1;
}

static int f283(State m, long l0, long l1, long l2) {
 final byte[] b = m.bytes;
 long l3 = 0;
 long l4 = 0;
 long l5 = 0;
 long l6 = 0;
 int l7 = 0;
 int l8 = 0;
 int l9 = 0;
 int l10 = 0;
 int l11 = 0;
 int l12 = 0;
 m.g0 = l3 = m.g0 - 224L;
 L1: {
  if ((l3 = l3) < 16L) { break L1; }
  l4 = Words.get64(b, ((int) l1) - 58896);
  Words.put64(b, ((int) l3) - 58848, l5 = Words.get64(b, ((int) l1) - 58888));
  Words.put64(b, ((int) l3) - 58856, l4);
  Words.put64(b, ((int) l3) - 58872, Words.get64(b, ((int) l1) - 58912));
  Words.put64(b, ((int) l3) - 58864, Words.get64(b, ((int) l1) - 58904));
  Words.put64(b, ((int) l3) - 58840, Words.get64(b, ((int) l1) - 58880));
  Words.put64(b, ((int) l3) - 58832, Words.get64(b, ((int) l1) - 58872));
  b[((int) l3) - 58818] = (byte) ((l7 = (int) l0) >>> 24);
  Words.put16(b, ((int) l3) - 58820, (short) (l7 >>> 8));
  l8 = 0;
  L2: {
   if (Core7.f239(m, l7, l3 + 92L, l3 + 40L) == 0) { break L2; }
   L3: {
    L4: {
     if (Core7.f240(m, l4, l5) != 0) { break L4; }
     l9 = Core7.f241(m, l4, l5);
     L5: {
      if ((l0 & 1095216660480L) != 0L) { break L5; }
      if (l9 != 0) { break L2; }
      l1 = l4;
      l6 = l5;
      L6: {
       L7: while (true) {
        if (l6 == 0L) { break L6; }
        l9 = (l10 = (int) b[((int) l1) - 58912]) & 255;
        l0 = 1L;
        L8: {
         if (l10 > -1) { break L8; }
         l11 = (b[((int) l1) - 58911] & 0xff) & 63;
         L9: {
          if (l10 + Integer.MIN_VALUE > 2147483615) { break L9; }
          l9 = ((l9 << 6) & 1984) | l11;
          l0 = 2L;
          break L8;
         }
         l12 = (b[((int) l1) - 58910] & 0xff) & 63;
         L10: {
          if (l10 + Integer.MIN_VALUE > 2147483631) { break L10; }
          l9 = ((l11 << 6) | ((l9 << 12) & 61440)) | l12;
          l0 = 3L;
          break L8;
         }
         l9 = ((l12 << 6) | ((l11 << 12) | ((l9 << 18) & 1835008))) | ((b[((int) l1) - 58909] & 0xff) & 63);
         l0 = 4L;
        }
        l6 = l6 - l0;
        l1 = l1 + l0;
        if (l9 != 21448) { continue L7; }
        break L2;
       }
      }
      l8 = f282(m, l2, l7, l4, l5);
      break L2;
     }
     L11: {
      if (l9 == 0) { break L11; }
      l1 = l4;
      l6 = l5;
      L12: while (true) {
       if (l6 == 0L) { break L2; }
       l9 = (l10 = (int) b[((int) l1) - 58912]) & 255;
       l0 = 1L;
       L13: {
        if (l10 > -1) { break L13; }
        l11 = (b[((int) l1) - 58911] & 0xff) & 63;
        L14: {
         if (l10 + Integer.MIN_VALUE > 2147483615) { break L14; }
         l9 = ((l9 << 6) & 1984) | l11;
         l0 = 2L;
         break L13;
        }
        l12 = (b[((int) l1) - 58910] & 0xff) & 63;
        L15: {
         if (l10 + Integer.MIN_VALUE > 2147483631) { break L15; }
         l9 = ((l11 << 6) | ((l9 << 12) & 61440)) | l12;
         l0 = 3L;
         break L13;
        }
        l9 = ((l12 << 6) | ((l11 << 12) | ((l9 << 18) & 1835008))) | ((b[((int) l1) - 58909] & 0xff) & 63);
        l0 = 4L;
       }
       Core2.f61(m, l3 + 32L, l9);
       L16: {
        if ((b[((int) l3) - 58880] & 0xff) != 1) { break L16; }
        if (((b[((int) l3) - 58879] & 0xff) & 255) != 0) { break L11; }
       }
       if (l9 == 38646) { break L11; }
       l1 = l1 + l0;
       l6 = l6 - l0;
       if (l9 != 12295) { continue L12; }
       break L12;
      }
     }
     Words.put64(b, ((int) l3) - 58712, 0L);
     Words.put64(b, ((int) l3) - 58720, 0L);
     Words.put64(b, ((int) l3) - 58728, 0L);
     Words.put64(b, ((int) l3) - 58736, 0L);
     Words.put64(b, ((int) l3) - 58744, 0L);
     Words.put64(b, ((int) l3) - 58752, 0L);
     Words.put64(b, ((int) l3) - 58760, 0L);
     Words.put64(b, ((int) l3) - 58768, 0L);
     Core3.f80(m, l3 + 144L, l4, l5, l7);
     Words.put64(b, ((int) l3) - 58816, Words.get64(b, ((int) l3) - 58752));
     Words.put64(b, ((int) l3) - 58808, Words.get64(b, ((int) l3) - 58744));
     Words.put64(b, ((int) l3) - 58800, Words.get64(b, ((int) l3) - 58736));
     Words.put64(b, ((int) l3) - 58792, Words.get64(b, ((int) l3) - 58728));
     Words.put64(b, ((int) l3) - 58784, Words.get64(b, ((int) l3) - 58720));
     Words.put64(b, ((int) l3) - 58776, Words.get64(b, ((int) l3) - 58712));
     l8 = 0;
     if ((b[((int) l3) - 58768] & 0xff) != 0) { break L2; }
     m.fill((int) (l3 + 144L), 0, (int) 80L);
     Core2.f52(m, l3 + 16L, l3 + 144L, l3 + 96L);
     Core2.f53(m, l2, Words.get64(b, ((int) l3) - 58896), Words.get64(b, ((int) l3) - 58888));
     break L3;
    }
    if ((l0 & 1099511627776L) == 0L) { break L2; }
    if (l5 == 0L) { break L3; }
    l8 = 0;
    L17: while (true) {
     l7 = (l9 = (int) b[((int) l4) - 58912]) & 255;
     l1 = 1L;
     L18: {
      if (l9 > -1) { break L18; }
      l10 = (b[((int) l4) - 58911] & 0xff) & 63;
      L19: {
       if (l9 + Integer.MIN_VALUE > 2147483615) { break L19; }
       l7 = ((l7 << 6) & 1984) | l10;
       l1 = 2L;
       break L18;
      }
      l11 = (b[((int) l4) - 58910] & 0xff) & 63;
      L20: {
       if (l9 + Integer.MIN_VALUE > 2147483631) { break L20; }
       l7 = ((l10 << 6) | ((l7 << 12) & 61440)) | l11;
       l1 = 3L;
       break L18;
      }
      l7 = ((l11 << 6) | ((l10 << 12) | ((l7 << 18) & 1835008))) | ((b[((int) l4) - 58909] & 0xff) & 63);
      l1 = 4L;
     }
     l5 = l5 - l1;
     l4 = l4 + l1;
     l9 = 0;
     L21: {
      if ((l8 & 1) != 0) { break L21; }
      L22: {
       if (l7 == 65296) { break L22; }
       if (l7 != 48) { break L21; }
      }
      if (l5 == 0L) { break L21; }
      l9 = (l10 = (int) b[((int) l4) - 58912]) & 255;
      L23: {
       if (l10 > -1) { break L23; }
       l11 = (b[((int) l4) - 58911] & 0xff) & 63;
       L24: {
        if (l10 + Integer.MIN_VALUE > 2147483615) { break L24; }
        l9 = ((l9 << 6) & 1984) | l11;
        break L23;
       }
       l12 = (b[((int) l4) - 58910] & 0xff) & 63;
       L25: {
        if (l10 + Integer.MIN_VALUE > 2147483631) { break L25; }
        l9 = ((l11 << 6) | ((l9 << 12) & 61440)) | l12;
        break L23;
       }
       l9 = ((l12 << 6) | ((l11 << 12) | ((l9 << 18) & 1835008))) | ((b[((int) l4) - 58909] & 0xff) & 63);
      }
      l9 = (((l9 + -48) + Integer.MIN_VALUE < -2147483638) | ((l9 + -65296) + Integer.MIN_VALUE < -2147483638)) ? 1 : 0;
     }
     Core7.f244(m, l3, l9, l7);
     Core2.f53(m, l2, Words.get64(b, ((int) l3) - 58912), Words.get64(b, ((int) l3) - 58904));
     L26: {
      L27: {
       if (((l8 | l9) & 1) == 0) { break L27; }
       l8 = l8 & (l9 ^ 1);
       break L26;
      }
      l8 = (((l7 + -48) + Integer.MIN_VALUE < -2147483638) | ((l7 + -65296) + Integer.MIN_VALUE < -2147483638)) ? 1 : 0;
     }
     if (l5 != 0L) { continue L17; }
     break L17;
    }
   }
   l8 = 1;
  }
  m.g0 = l3 + 224L;
  final int t28 = l8;
  return t28;
 }
 throw State.trap();
}

static int f284(State m, long l0, int l1, long l2, long l3, long l4, long l5) {
 final byte[] b = m.bytes;
 long l6 = 0;
 int l7 = 0;
 int l8 = 0;
 m.g0 = l6 = m.g0 - 240L;
 L1: {
  if ((l6 = l6) < 16L) { break L1; }
  l7 = 0;
  L2: {
   if (l3 + Long.MIN_VALUE > -9223372036854775760L) { break L2; }
   if (l5 + Long.MIN_VALUE > -9223372036854775760L) { break L2; }
   l7 = 0;
   m.fill((int) (l6 + 16L), 0, (int) 96L);
   Words.put64(b, ((int) l6) - 58744, 96L);
   Words.put64(b, ((int) l6) - 58752, l6 + 16L);
   Words.put64(b, ((int) l6) - 58736, 0L);
   Core2.f53(m, l6 + 160L, l2, l3);
   Core2.f53(m, l6 + 160L, l4, l5);
   final long t3 = Words.get64(b, ((int) l6) - 58752);
   final int t4 = l8 = (Words.get64(b, ((int) l6) - 58744) + Long.MIN_VALUE < (l3 = Words.get64(b, ((int) l6) - 58736)) + Long.MIN_VALUE) ? 1 : 0;
   l5 = t4 != 0 ? 83372L : t3;
   l3 = l8 != 0 ? 0L : l3;
   L5: {
    if ((l1 & 255) != 0) { break L5; }
    l7 = f282(m, l0, 1, l5, l3);
    break L2;
   }
   Words.put64(b, ((int) l6) - 58696, 0L);
   Words.put64(b, ((int) l6) - 58704, 0L);
   Words.put64(b, ((int) l6) - 58712, 0L);
   Words.put64(b, ((int) l6) - 58720, 0L);
   Words.put64(b, ((int) l6) - 58728, 0L);
   Words.put64(b, ((int) l6) - 58736, 0L);
   Words.put64(b, ((int) l6) - 58744, 0L);
   Words.put64(b, ((int) l6) - 58752, 0L);
   Core3.f80(m, l6 + 160L, l5, l3, 1);
   Words.put64(b, ((int) l6) - 58800, Words.get64(b, ((int) l6) - 58736));
   Words.put64(b, ((int) l6) - 58792, Words.get64(b, ((int) l6) - 58728));
   Words.put64(b, ((int) l6) - 58784, Words.get64(b, ((int) l6) - 58720));
   Words.put64(b, ((int) l6) - 58776, Words.get64(b, ((int) l6) - 58712));
   Words.put64(b, ((int) l6) - 58768, Words.get64(b, ((int) l6) - 58704));
   Words.put64(b, ((int) l6) - 58760, Words.get64(b, ((int) l6) - 58696));
   if ((b[((int) l6) - 58752] & 0xff) != 0) { break L2; }
   m.fill((int) (l6 + 160L), 0, (int) 80L);
   Core2.f52(m, l6, l6 + 160L, l6 + 112L);
   Core2.f53(m, l0, Words.get64(b, ((int) l6) - 58912), Words.get64(b, ((int) l6) - 58904));
   l7 = 1;
  }
  m.g0 = l6 + 240L;
  final int t6 = l7;
  return t6;
 }
 throw State.trap();
}

static void f285(State m, long l0, long l1, int l2, long l3, long l4) {
 final byte[] b = m.bytes;
 long l5 = 0;
 long l6 = 0;
 long l7 = 0;
 long l8 = 0;
 long l9 = 0;
 long l10 = 0;
 long l11 = 0;
 long l12 = 0;
 int l13 = 0;
 int l14 = 0;
 int l15 = 0;
 int l16 = 0;
 int l17 = 0;
 int l18 = 0;
 m.g0 = l5 = m.g0 - 240L;
 L1: {
  L2: {
   L3: {
    L4: {
     L5: {
      L6: {
       if ((l5 = l5) < 16L) { break L6; }
       Words.put64(b, ((int) l5) - 58808, 0L);
       Words.put64(b, ((int) l5) - 58816, 0L);
       Words.put64(b, ((int) l5) - 58824, 0L);
       Words.put64(b, ((int) l5) - 58832, 0L);
       Words.put64(b, ((int) l5) - 58840, 0L);
       Core7.f245(m, l5 + 72L, l3, l4);
       if ((b[((int) l5) - 58840] & 0xff) != 1) { break L2; }
       l6 = Words.get64(b, ((int) l5) - 58808);
       l7 = Words.get64(b, ((int) l5) - 58816);
       l8 = Words.get64(b, ((int) l5) - 58824);
       l9 = Words.get64(b, ((int) l5) - 58832);
       Words.put64(b, ((int) l5) - 58744, 0L);
       Words.put64(b, ((int) l5) - 58752, 0L);
       Words.put64(b, ((int) l5) - 58760, 0L);
       Words.put64(b, ((int) l5) - 58768, 0L);
       Words.put64(b, ((int) l5) - 58776, 0L);
       Words.put64(b, ((int) l5) - 58784, 0L);
       Words.put64(b, ((int) l5) - 58792, 0L);
       Words.put64(b, ((int) l5) - 58800, 0L);
       Core3.f80(m, l5 + 112L, l3, l4, l2);
       l13 = 0;
       if ((b[((int) l5) - 58800] & 0xff) != 0) { break L1; }
       l10 = Words.get64(b, ((int) l5) - 58776);
       l11 = Words.get64(b, ((int) l5) - 58784);
       l14 = b[((int) l5) - 58752] & 0xff;
       l4 = l7;
       l12 = l6;
       L7: {
        L8: while (true) {
         if (l12 == 0L) { break L7; }
         l16 = (l15 = (int) b[((int) l4) - 58912]) & 255;
         l3 = 1L;
         L9: {
          if (l15 > -1) { break L9; }
          l17 = (b[((int) l4) - 58911] & 0xff) & 63;
          L10: {
           if (l15 + Integer.MIN_VALUE > 2147483615) { break L10; }
           l16 = ((l16 << 6) & 1984) | l17;
           l3 = 2L;
           break L9;
          }
          l18 = (b[((int) l4) - 58910] & 0xff) & 63;
          L11: {
           if (l15 + Integer.MIN_VALUE > 2147483631) { break L11; }
           l16 = ((l17 << 6) | ((l16 << 12) & 61440)) | l18;
           l3 = 3L;
           break L9;
          }
          l16 = ((l18 << 6) | ((l17 << 12) | ((l16 << 18) & 1835008))) | ((b[((int) l4) - 58909] & 0xff) & 63);
          l3 = 4L;
         }
         Core2.f61(m, l5 + 48L, l16);
         L12: {
          if ((b[((int) l5) - 58864] & 0xff) != 1) { break L12; }
          l12 = l12 - l3;
          l4 = l4 + l3;
          if (((b[((int) l5) - 58863] & 0xff) & 255) + Integer.MIN_VALUE > -2147483647) { continue L8; }
         }
         break L8;
        }
        if (l6 == 0L) { break L5; }
        l16 = (l15 = (int) b[((int) l7) - 58912]) & 255;
        l4 = 1L;
        L13: {
         if (l15 > -1) { break L13; }
         l17 = (b[((int) l7) - 58911] & 0xff) & 63;
         L14: {
          if (l15 + Integer.MIN_VALUE > 2147483615) { break L14; }
          l16 = ((l16 << 6) & 1984) | l17;
          l4 = 2L;
          break L13;
         }
         l18 = (b[((int) l7) - 58910] & 0xff) & 63;
         L15: {
          if (l15 + Integer.MIN_VALUE > 2147483631) { break L15; }
          l16 = ((l17 << 6) | ((l16 << 12) & 61440)) | l18;
          l4 = 3L;
          break L13;
         }
         l16 = ((l18 << 6) | ((l17 << 12) | ((l16 << 18) & 1835008))) | ((b[((int) l7) - 58909] & 0xff) & 63);
         l4 = 4L;
        }
        L16: {
         L17: {
          if (l16 > 35999) { break L17; }
          if (l16 == 45) { break L16; }
          if (l16 == 8722) { break L16; }
          break L5;
         }
         if (l16 == 36000) { break L16; }
         if (l16 == 65293) { break L16; }
         if (l16 != 36127) { break L5; }
        }
        Core2.f53(m, l1, 77252L, 1L);
        f286(m, l5 + 40L, l1, l2, l7 + l4, l6 - l4);
        l16 = b[((int) l5) - 58871] & 0xff;
        break L4;
       }
       Words.put64(b, ((int) l5) - 58696, 0L);
       Words.put64(b, ((int) l5) - 58704, 1L);
       Words.put64(b, ((int) l5) - 58720, l11);
       Words.put64(b, ((int) l5) - 58688, 0L);
       Words.put64(b, ((int) l5) - 58680, 0L);
       Words.put64(b, ((int) l5) - 58712, l10);
       m.fill((int) (l5 + 112L), 0, (int) 80L);
       Core2.f52(m, l5 + 16L, l5 + 112L, l5 + 192L);
       Core2.f53(m, l1, Words.get64(b, ((int) l5) - 58896), Words.get64(b, ((int) l5) - 58888));
       break L3;
      }
      throw State.trap();
     }
     f286(m, l5 + 32L, l1, l2, l7, l6);
     l16 = b[((int) l5) - 58879] & 0xff;
    }
    if ((l16 & 1) == 0) { break L1; }
   }
   L18: {
    if ((l14 & 255) != 2) { break L18; }
    Core2.f53(m, l1, 77254L, 1L);
    l13 = 1;
    break L1;
   }
   Words.put64(b, ((int) l5) - 58744, 0L);
   Words.put64(b, ((int) l5) - 58752, 0L);
   Words.put64(b, ((int) l5) - 58760, 0L);
   Words.put64(b, ((int) l5) - 58768, 0L);
   Words.put64(b, ((int) l5) - 58776, 0L);
   Words.put64(b, ((int) l5) - 58784, 0L);
   Words.put64(b, ((int) l5) - 58792, 0L);
   Words.put64(b, ((int) l5) - 58800, 0L);
   Core3.f80(m, l5 + 112L, l9, l8, l2);
   if ((b[((int) l5) - 58800] & 0xff) != 0) { break L1; }
   final int t19 = (Words.get64(b, ((int) l5) - 58784) + Long.MIN_VALUE > -9223372036854774809L) ? 1 : 0;
   final int t20 = ((l4 = Words.get64(b, ((int) l5) - 58776)) > 0L) ? 1 : 0;
   final int t21 = (l4 == 0L) ? 1 : 0;
   if ((t21 != 0 ? t19 : t20) != 0) { break L1; }
   Core2.f53(m, l1, 77253L, 1L);
   f286(m, l5 + 8L, l1, l2, l9, l8);
   l13 = b[((int) l5) - 58903] & 0xff;
   break L1;
  }
  L22: {
   if (!(l4 == 0L)) { break L22; }
   l13 = 0;
   break L1;
  }
  L23: {
   if ((l16 = (int) b[((int) (l3 + (l12 = l4 + -1L))) - 58912]) >= 0) { break L23; }
   l12 = -2L;
   L24: {
    if ((b[((int) ((l7 = l3 + l4) + -2L)) - 58912] & 0xff) + Integer.MIN_VALUE > -2147483457) { break L24; }
    l12 = ((b[((int) (l7 + -3L)) - 58912] & 0xff) + Integer.MIN_VALUE > -2147483457) ? -3L : -4L;
   }
   l16 = (l15 = (int) b[((int) (l7 = l3 + (l12 = l12 + l4))) - 58912]) & 255;
   if (l15 > -1) { break L23; }
   l13 = (b[((int) l7) - 58911] & 0xff) & 63;
   L25: {
    if (l15 + Integer.MIN_VALUE > 2147483615) { break L25; }
    l16 = ((l16 << 6) & 1984) | l13;
    break L23;
   }
   l17 = (b[((int) l7) - 58910] & 0xff) & 63;
   L26: {
    if (l15 + Integer.MIN_VALUE > 2147483631) { break L26; }
    l16 = ((l13 << 6) | ((l16 << 12) & 61440)) | l17;
    break L23;
   }
   l16 = ((l17 << 6) | ((l13 << 12) | ((l16 << 18) & 1835008))) | ((b[((int) l7) - 58909] & 0xff) & 63);
  }
  L27: {
   L28: {
    if (l16 == 37) { break L28; }
    if (l16 == 65285) { break L28; }
    if (l16 != 8240) { break L27; }
   }
   f286(m, l5 + 64L, l1, l2, l3, l12);
   l13 = 1;
   L29: {
    if (((b[((int) l5) - 58847] & 0xff) & 1) != 0) { break L29; }
    l13 = 0;
    break L1;
   }
   Core2.f53(m, l1, l3 + l12, l4 - l12);
   break L1;
  }
  f286(m, l5 + 56L, l1, l2, l3, l4);
  l13 = b[((int) l5) - 58855] & 0xff;
 }
 b[((int) l0) - 58911] = (byte) l13;
 b[((int) l0) - 58912] = (byte) 0;
 m.g0 = l5 + 240L;
}

static void f286(State m, long l0, long l1, int l2, long l3, long l4) {
 final byte[] b = m.bytes;
 long l5 = 0;
 long l6 = 0;
 long l7 = 0;
 long l8 = 0;
 long l9 = 0;
 long l10 = 0;
 long l11 = 0;
 long l12 = 0;
 int l13 = 0;
 int l14 = 0;
 int l15 = 0;
 int l16 = 0;
 int l17 = 0;
 int l18 = 0;
 m.g0 = l5 = m.g0 - 320L;
 L1: {
  L2: {
   L3: {
    L4: {
     L5: {
      if ((l5 = l5) < 16L) { break L5; }
      Words.put64(b, ((int) l5) - 58792, 0L);
      Words.put64(b, ((int) l5) - 58800, 0L);
      Words.put64(b, ((int) l5) - 58808, 0L);
      Words.put64(b, ((int) l5) - 58816, 0L);
      Words.put64(b, ((int) l5) - 58824, 0L);
      l6 = l3;
      l7 = l4;
      L6: {
       if ((l13 = (l4 == 0L) ? 1 : 0) != 0) { break L6; }
       l15 = (l14 = (int) b[((int) l3) - 58912]) & 255;
       L7: {
        if (l14 > -1) { break L7; }
        l16 = (b[((int) l3) - 58911] & 0xff) & 63;
        L8: {
         if (l14 + Integer.MIN_VALUE > 2147483615) { break L8; }
         l15 = ((l15 << 6) & 1984) | l16;
         break L7;
        }
        l17 = (b[((int) l3) - 58910] & 0xff) & 63;
        L9: {
         if (l14 + Integer.MIN_VALUE > 2147483631) { break L9; }
         l15 = ((l16 << 6) | ((l15 << 12) & 61440)) | l17;
         break L7;
        }
        l15 = ((l17 << 6) | ((l16 << 12) | ((l15 << 18) & 1835008))) | ((b[((int) l3) - 58909] & 0xff) & 63);
       }
       L10: {
        if ((l15 + -48) + Integer.MIN_VALUE < -2147483638) { break L10; }
        l6 = l3;
        l7 = l4;
        if ((l15 + -65296) + Integer.MIN_VALUE >= -2147483638) { break L6; }
       }
       Core2.f53(m, l1, l3, l4);
       break L2;
      }
      L11: while (true) {
       if (l7 == 0L) { break L4; }
       l15 = (l14 = (int) b[((int) l6) - 58912]) & 255;
       l8 = 1L;
       L12: {
        if (l14 > -1) { break L12; }
        l16 = (b[((int) l6) - 58911] & 0xff) & 63;
        L13: {
         if (l14 + Integer.MIN_VALUE > 2147483615) { break L13; }
         l15 = ((l15 << 6) & 1984) | l16;
         l8 = 2L;
         break L12;
        }
        l17 = (b[((int) l6) - 58910] & 0xff) & 63;
        L14: {
         if (l14 + Integer.MIN_VALUE > 2147483631) { break L14; }
         l15 = ((l16 << 6) | ((l15 << 12) & 61440)) | l17;
         l8 = 3L;
         break L12;
        }
        l15 = ((l17 << 6) | ((l16 << 12) | ((l15 << 18) & 1835008))) | ((b[((int) l6) - 58909] & 0xff) & 63);
        l8 = 4L;
       }
       Core2.f63(m, l5 + 80L, l15);
       L15: {
        if ((l15 + -58) + Integer.MIN_VALUE > 2147483637) { break L15; }
        l7 = l7 - l8;
        l6 = l6 + l8;
        if (((b[((int) l5) - 58832] & 0xff) & 255) == 1) { continue L11; }
       }
       break L11;
      }
      Core7.f247(m, l5 + 88L, l3, l4);
      L16: {
       if ((b[((int) l5) - 58824] & 0xff) != 1) { break L16; }
       l7 = Words.get64(b, ((int) l5) - 58792);
       l9 = Words.get64(b, ((int) l5) - 58800);
       l6 = Words.get64(b, ((int) l5) - 58808);
       l8 = Words.get64(b, ((int) l5) - 58816);
       Words.put64(b, ((int) l5) - 58616, 0L);
       Words.put64(b, ((int) l5) - 58624, 0L);
       Words.put64(b, ((int) l5) - 58632, 0L);
       Words.put64(b, ((int) l5) - 58640, 0L);
       Words.put64(b, ((int) l5) - 58648, 0L);
       Words.put64(b, ((int) l5) - 58656, 0L);
       Words.put64(b, ((int) l5) - 58664, 0L);
       Words.put64(b, ((int) l5) - 58672, 0L);
       Core3.f80(m, l5 + 240L, l8, l6, l2);
       Words.put64(b, ((int) l5) - 58784, Words.get64(b, ((int) l5) - 58656));
       Words.put64(b, ((int) l5) - 58776, Words.get64(b, ((int) l5) - 58648));
       Words.put64(b, ((int) l5) - 58768, Words.get64(b, ((int) l5) - 58640));
       Words.put64(b, ((int) l5) - 58760, Words.get64(b, ((int) l5) - 58632));
       Words.put64(b, ((int) l5) - 58752, Words.get64(b, ((int) l5) - 58624));
       Words.put64(b, ((int) l5) - 58744, Words.get64(b, ((int) l5) - 58616));
       L17: {
        if ((b[((int) l5) - 58672] & 0xff) == 0) { break L17; }
        l18 = 0;
        break L1;
       }
       m.fill((int) (l5 + 240L), 0, (int) 80L);
       Core2.f52(m, l5 + 8L, l5 + 240L, l5 + 128L);
       Core2.f53(m, l1, Words.get64(b, ((int) l5) - 58904), Words.get64(b, ((int) l5) - 58896));
       Core2.f53(m, l1, 98142L, 1L);
       f287(m, l1, l9, l7);
       break L2;
      }
      L18: {
       if (Core7.f248(m, l3, l4) == 0) { break L18; }
       l18 = 1;
       if (l13 != 0) { break L1; }
       l10 = l5 + 256L;
       l11 = l3;
       l12 = l4;
       L19: while (true) {
        l15 = (l14 = (int) b[((int) l11) - 58912]) & 255;
        l6 = 1L;
        L20: {
         if (l14 > -1) { break L20; }
         l16 = (b[((int) l11) - 58911] & 0xff) & 63;
         L21: {
          if (l14 + Integer.MIN_VALUE > 2147483615) { break L21; }
          l15 = ((l15 << 6) & 1984) | l16;
          l6 = 2L;
          break L20;
         }
         l17 = (b[((int) l11) - 58910] & 0xff) & 63;
         L22: {
          if (l14 + Integer.MIN_VALUE > 2147483631) { break L22; }
          l15 = ((l16 << 6) | ((l15 << 12) & 61440)) | l17;
          l6 = 3L;
          break L20;
         }
         l15 = ((l17 << 6) | ((l16 << 12) | ((l15 << 18) & 1835008))) | ((b[((int) l11) - 58909] & 0xff) & 63);
         l6 = 4L;
        }
        L23: {
         if (Core7.f249(m, l15, l11 = l11 + l6, l12 = l12 - l6) == 0) { break L23; }
         l6 = l3;
         l9 = 0L;
         L24: {
          if ((l4 = l4 - l12) == 0L) { break L24; }
          l7 = l4;
          l6 = l3;
          L25: while (true) {
           l15 = (l14 = (int) b[((int) l6) - 58912]) & 255;
           l8 = 1L;
           L26: {
            if (l14 > -1) { break L26; }
            l16 = (b[((int) l6) - 58911] & 0xff) & 63;
            L27: {
             if (l14 + Integer.MIN_VALUE > 2147483615) { break L27; }
             l15 = ((l15 << 6) & 1984) | l16;
             l8 = 2L;
             break L26;
            }
            l17 = (b[((int) l6) - 58910] & 0xff) & 63;
            L28: {
             if (l14 + Integer.MIN_VALUE > 2147483631) { break L28; }
             l15 = ((l16 << 6) | ((l15 << 12) & 61440)) | l17;
             l8 = 3L;
             break L26;
            }
            l15 = ((l17 << 6) | ((l16 << 12) | ((l15 << 18) & 1835008))) | ((b[((int) l6) - 58909] & 0xff) & 63);
            l8 = 4L;
           }
           L29: {
            if (l15 == 38646) { break L29; }
            if (l15 == 12295) { break L29; }
            l9 = l7;
            break L24;
           }
           l6 = l6 + l8;
           l9 = 0L;
           if ((l7 = l7 - l8) != 0L) { continue L25; }
           break L25;
          }
         }
         Core2.f53(m, l1, l3, l4 - l9);
         Words.put64(b, ((int) l5) - 58696, 0L);
         Words.put64(b, ((int) l5) - 58704, 0L);
         Words.put64(b, ((int) l5) - 58712, 0L);
         Words.put64(b, ((int) l5) - 58720, 0L);
         Core7.f250(m, l5 + 192L, l6, l9);
         l7 = Words.get64(b, ((int) l5) - 58696);
         l9 = Words.get64(b, ((int) l5) - 58704);
         l6 = Words.get64(b, ((int) l5) - 58712);
         l8 = Words.get64(b, ((int) l5) - 58720);
         Words.put64(b, ((int) l5) - 58616, 0L);
         Words.put64(b, ((int) l5) - 58624, 0L);
         Words.put64(b, ((int) l5) - 58632, 0L);
         Words.put64(b, ((int) l5) - 58640, 0L);
         Words.put64(b, ((int) l5) - 58648, 0L);
         Words.put64(b, ((int) l5) - 58656, 0L);
         Words.put64(b, ((int) l5) - 58664, 0L);
         Words.put64(b, ((int) l5) - 58672, 0L);
         Core3.f80(m, l5 + 240L, l8, l6, l2);
         Words.put64(b, ((int) l5) - 58784, Words.get64(b, ((int) l10) - 58912));
         Words.put64(b, ((int) l5) - 58776, Words.get64(b, ((int) l10) - 58904));
         Words.put64(b, ((int) l5) - 58768, Words.get64(b, ((int) l10) - 58896));
         Words.put64(b, ((int) l5) - 58760, Words.get64(b, ((int) l10) - 58888));
         Words.put64(b, ((int) l5) - 58752, Words.get64(b, ((int) l10) - 58880));
         Words.put64(b, ((int) l5) - 58744, Words.get64(b, ((int) l10) - 58872));
         if ((b[((int) l5) - 58672] & 0xff) != 0) { break L3; }
         m.fill((int) (l5 + 240L), 0, (int) 80L);
         Core2.f52(m, l5 + 24L, l5 + 240L, l5 + 128L);
         Core2.f53(m, l1, Words.get64(b, ((int) l5) - 58888), Words.get64(b, ((int) l5) - 58880));
         Core2.f53(m, l1, l9, l7);
         l4 = l12;
         l3 = l11;
        }
        if (!(l12 == 0L)) { continue L19; }
        break L1;
       }
      }
      Words.put64(b, ((int) l5) - 58728, 0L);
      Words.put64(b, ((int) l5) - 58736, 0L);
      Words.put64(b, ((int) l5) - 58744, 0L);
      Words.put64(b, ((int) l5) - 58752, 0L);
      Words.put64(b, ((int) l5) - 58760, 0L);
      Words.put64(b, ((int) l5) - 58768, 0L);
      Words.put64(b, ((int) l5) - 58776, 0L);
      Words.put64(b, ((int) l5) - 58784, 0L);
      Core7.f251(m, l5 + 128L, l3, l4);
      L30: {
       L31: {
        if ((b[((int) l5) - 58784] & 0xff) != 1) { break L31; }
        l7 = Words.get64(b, ((int) l5) - 58728);
        l9 = Words.get64(b, ((int) l5) - 58736);
        l3 = Words.get64(b, ((int) l5) - 58744);
        l4 = Words.get64(b, ((int) l5) - 58752);
        l15 = Words.get32(b, ((int) l5) - 58760);
        l6 = Words.get64(b, ((int) l5) - 58768);
        l8 = Words.get64(b, ((int) l5) - 58776);
        Words.put64(b, ((int) l5) - 58616, 0L);
        Words.put64(b, ((int) l5) - 58624, 0L);
        Words.put64(b, ((int) l5) - 58632, 0L);
        Words.put64(b, ((int) l5) - 58640, 0L);
        Words.put64(b, ((int) l5) - 58648, 0L);
        Words.put64(b, ((int) l5) - 58656, 0L);
        Words.put64(b, ((int) l5) - 58664, 0L);
        Words.put64(b, ((int) l5) - 58672, 0L);
        Core3.f80(m, l5 + 240L, l8, l6, l2);
        Words.put64(b, ((int) l5) - 58720, Words.get64(b, ((int) l5) - 58656));
        Words.put64(b, ((int) l5) - 58712, Words.get64(b, ((int) l5) - 58648));
        Words.put64(b, ((int) l5) - 58704, Words.get64(b, ((int) l5) - 58640));
        Words.put64(b, ((int) l5) - 58696, Words.get64(b, ((int) l5) - 58632));
        Words.put64(b, ((int) l5) - 58688, Words.get64(b, ((int) l5) - 58624));
        Words.put64(b, ((int) l5) - 58680, Words.get64(b, ((int) l5) - 58616));
        if ((b[((int) l5) - 58672] & 0xff) == 0) { break L30; }
        l18 = 0;
        break L1;
       }
       Words.put64(b, ((int) l5) - 58616, 0L);
       Words.put64(b, ((int) l5) - 58624, 0L);
       Words.put64(b, ((int) l5) - 58632, 0L);
       Words.put64(b, ((int) l5) - 58640, 0L);
       Words.put64(b, ((int) l5) - 58648, 0L);
       Words.put64(b, ((int) l5) - 58656, 0L);
       Words.put64(b, ((int) l5) - 58664, 0L);
       Words.put64(b, ((int) l5) - 58672, 0L);
       Core3.f80(m, l5 + 240L, l3, l4, l2);
       Words.put64(b, ((int) l5) - 58720, Words.get64(b, ((int) l5) - 58656));
       Words.put64(b, ((int) l5) - 58712, Words.get64(b, ((int) l5) - 58648));
       Words.put64(b, ((int) l5) - 58704, Words.get64(b, ((int) l5) - 58640));
       Words.put64(b, ((int) l5) - 58696, Words.get64(b, ((int) l5) - 58632));
       Words.put64(b, ((int) l5) - 58688, Words.get64(b, ((int) l5) - 58624));
       Words.put64(b, ((int) l5) - 58680, Words.get64(b, ((int) l5) - 58616));
       l18 = 0;
       if ((b[((int) l5) - 58672] & 0xff) != 0) { break L1; }
       m.fill((int) (l5 + 240L), 0, (int) 80L);
       Core2.f52(m, l5 + 64L, l5 + 240L, l5 + 192L);
       Core2.f53(m, l1, Words.get64(b, ((int) l5) - 58848), Words.get64(b, ((int) l5) - 58840));
       break L2;
      }
      m.fill((int) (l5 + 240L), 0, (int) 80L);
      Core2.f52(m, l5 + 48L, l5 + 240L, l5 + 192L);
      Core2.f53(m, l1, Words.get64(b, ((int) l5) - 58864), Words.get64(b, ((int) l5) - 58856));
      Core2.f53(m, l1, 98142L, 1L);
      Core2.f63(m, l5 + 40L, l15);
      L32: {
       L33: {
        if ((b[((int) l5) - 58872] & 0xff) != 1) { break L33; }
        Core2.f53(m, l1, Words.get64(b, State.far((int) ((((b[((int) l5) - 58871] & 0xff) & 0xffffffffL) & 255L) << 3L), 102816)), 1L);
        break L32;
       }
       Core2.f53(m, l1, l4, l3);
      }
      Core2.f53(m, l1, l9, l7);
      break L2;
     }
     throw State.trap();
    }
    f287(m, l1, l3, l4);
    break L2;
   }
   l18 = 0;
   break L1;
  }
  l18 = 1;
 }
 b[((int) l0) - 58911] = (byte) l18;
 b[((int) l0) - 58912] = (byte) 0;
 m.g0 = l5 + 320L;
}

static void f287(State m, long l0, long l1, long l2) {
 final byte[] b = m.bytes;
 long l3 = 0;
 long l4 = 0;
 int l5 = 0;
 int l6 = 0;
 int l7 = 0;
 int l8 = 0;
 m.g0 = l3 = m.g0 - 16L;
 L1: {
  if ((l4 = l3) < 16L) { break L1; }
  L2: {
   if (l2 == 0L) { break L2; }
   L3: while (true) {
    l6 = (l5 = (int) b[((int) l1) - 58912]) & 255;
    l3 = 1L;
    L4: {
     if (l5 > -1) { break L4; }
     l7 = (b[((int) l1) - 58911] & 0xff) & 63;
     L5: {
      if (l5 + Integer.MIN_VALUE > 2147483615) { break L5; }
      l6 = ((l6 << 6) & 1984) | l7;
      l3 = 2L;
      break L4;
     }
     l8 = (b[((int) l1) - 58910] & 0xff) & 63;
     L6: {
      if (l5 + Integer.MIN_VALUE > 2147483631) { break L6; }
      l6 = ((l7 << 6) | ((l6 << 12) & 61440)) | l8;
      l3 = 3L;
      break L4;
     }
     l6 = ((l8 << 6) | ((l7 << 12) | ((l6 << 18) & 1835008))) | ((b[((int) l1) - 58909] & 0xff) & 63);
     l3 = 4L;
    }
    Core2.f63(m, l4 + 8L, l6);
    l2 = l2 - l3;
    L7: {
     L8: {
      if ((b[((int) l4) - 58904] & 0xff) != 1) { break L8; }
      Core2.f53(m, l0, Words.get64(b, State.far((int) ((((b[((int) l4) - 58903] & 0xff) & 0xffffffffL) & 255L) << 3L), 102816)), 1L);
      break L7;
     }
     Core2.f53(m, l0, l1, l3);
    }
    l1 = l1 + l3;
    if (l2 != 0L) { continue L3; }
    break L3;
   }
  }
  m.g0 = l4 + 16L;
  return;
 }
 throw State.trap();
}

static int f288(State m, long l0, long l1, int l2, int l3, long l4) {
 final byte[] b = m.bytes;
 long l5 = 0;
 long l6 = 0;
 long l7 = 0;
 int l8 = 0;
 L1: {
  L2: {
   L3: {
    if ((l5 = m.g0) < 16L) { break L3; }
    L4: {
     if (l2 + Integer.MIN_VALUE < -2147483638) { break L4; }
     Words.put64(b, ((int) l4) - 58888, 0L);
     Words.put64(b, ((int) l4) - 58896, 0L);
     Words.put64(b, ((int) l4) - 58904, 0L);
     Words.put64(b, ((int) l4) - 58912, 0L);
     break L1;
    }
    if (l3 + Integer.MIN_VALUE > -2147483643) { break L2; }
    l6 = l0;
    l7 = l1;
    L5: {
     L6: {
      if (l1 + Long.MIN_VALUE < -9223372036854775804L) { break L6; }
      L7: while (true) {
       if (((Words.get32(b, ((int) l6) - 58912) + 16776990) & 12632312) != 8421376) { break L5; }
       l6 = l6 + 3L;
       if ((l7 = l7 + -3L) + Long.MIN_VALUE > -9223372036854775805L) { continue L7; }
       break L7;
      }
     }
     if (l7 + Long.MIN_VALUE > -9223372036854775805L) { break L5; }
     L8: {
      L9: {
       switch ((int) l7) {
       case 1: case 2: break L5;
       case 3: break L9;
       default: break L8;
       }
      }
      if (((((Words.get16(b, ((int) l6) - 58912) & 0xffff) | ((b[((int) (l6 + 2L)) - 58912] & 0xff) << 16)) + 16776990) & 12632312) != 8421376) { break L5; }
     }
     L10: {
      if (l3 + Integer.MIN_VALUE > -2147483644) { break L10; }
      l3 = b[((int) ((l6 = (l3 & 0xffffffffL) << 1L) + 98010L)) - 58912] & 0xff;
      l8 = b[((int) (l6 + 98009L)) - 58912] & 0xff;
      L11: {
       if (l2 + Integer.MIN_VALUE < -2147483643) { break L11; }
       l2 = Core7.f232(m, l0, l1, l2, l8, l3, l4);
       m.g0 = l5;
       final int t12 = l2;
       return t12;
      }
      l2 = Core7.f233(m, l0, l1, l2, l8, l3, l4);
      m.g0 = l5;
      final int t13 = l2;
      return t13;
     }
     l2 = Core7.f234(m, l0, l1, l2, l4);
     m.g0 = l5;
     final int t14 = l2;
     return t14;
    }
    l2 = f289(m, l0, l1, l2, l3, l4);
    m.g0 = l5;
    final int t15 = l2;
    return t15;
   }
   throw State.trap();
  }
  Words.put64(b, ((int) l4) - 58888, 0L);
  Words.put64(b, ((int) l4) - 58896, 0L);
  Words.put64(b, ((int) l4) - 58904, 0L);
  Words.put64(b, ((int) l4) - 58912, 0L);
 }
 m.g0 = l5;
 return 8;
}

static int f289(State m, long l0, long l1, int l2, int l3, long l4) {
 final byte[] b = m.bytes;
 long l5 = 0;
 long l6 = 0;
 long l7 = 0;
 long l8 = 0;
 long l9 = 0;
 long l10 = 0;
 long l11 = 0;
 int l12 = 0;
 int l13 = 0;
 L1: {
  if ((l5 = m.g0) < 16L) { break L1; }
  L2: {
   if (l1 == 0L) { break L2; }
   l6 = l0;
   l7 = l1;
   L3: while (true) {
    L4: {
     L5: {
      if (l7 + Long.MIN_VALUE < -9223372036854775804L) { break L5; }
      l12 = Words.get32(b, ((int) l6) - 58912);
      break L4;
     }
     L6: {
      L7: {
       if ((l8 = l7 + -1L) + Long.MIN_VALUE > -9223372036854775806L) { break L7; }
       L8: {
        switch ((int) l8) {
        case 1: break L7;
        case 2: break L6;
        default: break L8;
        }
       }
       l12 = b[((int) l6) - 58912] & 0xff;
       break L4;
      }
      l12 = Words.get16(b, ((int) l6) - 58912) & 0xffff;
      break L4;
     }
     l12 = (Words.get16(b, ((int) l6) - 58912) & 0xffff) | ((b[((int) (l6 + 2L)) - 58912] & 0xff) << 16);
    }
    l8 = 3L;
    L9: {
     if (((l12 + 16776990) & 12632312) == 8421376) { break L9; }
     L10: {
      L11: {
       L12: {
        if ((l12 & -2139062144) == 0) { break L12; }
        if ((l12 & 128) != 0) { break L11; }
        final long t13 = ((l12 & 8388608) != 0) ? 2L : 3L;
        final int t14 = l12 & 32768;
        l9 = t14 != 0 ? 1L : t13;
        break L10;
       }
       l9 = 4L;
       if (l7 + Long.MIN_VALUE < -9223372036854775800L) { break L10; }
       if ((Words.get64(b, ((int) l6) - 58912) & -9187201950435737472L) != 0L) { break L10; }
       L15: {
        if (l7 + Long.MIN_VALUE >= -9223372036854775784L) { break L15; }
        l8 = 8L;
        break L9;
       }
       l10 = l7 + -16L;
       l8 = 8L;
       L16: {
        L17: while (true) {
         if (l10 + Long.MIN_VALUE < -9223372036854775800L) { break L16; }
         if (((Words.get64(b, ((int) ((l11 = l6 + l8) + 8L)) - 58912) | Words.get64(b, ((int) l11) - 58912)) & -9187201950435737472L) != 0L) { break L16; }
         l8 = l8 + 16L;
         l11 = l10 + -8L;
         l10 = l10 + -16L;
         if (l11 + Long.MIN_VALUE > -9223372036854775793L) { continue L17; }
         break L17;
        }
       }
       if (l8 == 0L) { break L10; }
       break L9;
      }
      L18: {
       L19: {
        if ((l12 & 224) == 224) { break L19; }
        if ((l12 & 49376) != 32960) { break L18; }
        if ((l12 & 222) + Integer.MIN_VALUE <= -2147483455) { break L18; }
        l8 = 2L;
        break L9;
       }
       L20: {
        if ((l12 & 12632304) != 8421600) { break L20; }
        if ((l13 = l12 & 8431) == 8429) { break L20; }
        if (l13 != 224) { break L9; }
       }
       if ((l12 & -1061109760) != -2139062272) { break L18; }
       if (((((l12 >>> 8) & 240) + ((l12 << 6) & 16320)) + -15504) + Integer.MIN_VALUE >= -2147483392) { break L18; }
       l8 = 4L;
       break L9;
      }
      Words.put64(b, ((int) l4) - 58888, 0L);
      Words.put64(b, ((int) l4) - 58896, 0L);
      Words.put64(b, ((int) l4) - 58904, 0L);
      Words.put64(b, ((int) l4) - 58912, 0L);
      m.g0 = l5;
      return 5;
     }
     l8 = (l7 + Long.MIN_VALUE < l9 + Long.MIN_VALUE) ? l7 : l9;
    }
    l6 = l6 + l8;
    if (!((l7 = l7 - l8) == 0L)) { continue L3; }
    break L3;
   }
  }
  L21: {
   L22: {
    L23: {
     if (l3 + Integer.MIN_VALUE < -2147483643) { break L23; }
     if (l2 + Integer.MIN_VALUE > -2147483639) { break L22; }
     if (l3 != 5) { break L22; }
     l12 = Core7.f234(m, l0, l1, l2, l4);
     m.g0 = l5;
     final int t24 = l12;
     return t24;
    }
    if (l2 + Integer.MIN_VALUE < -2147483638) { break L21; }
   }
   Words.put64(b, ((int) l4) - 58888, 0L);
   Words.put64(b, ((int) l4) - 58896, 0L);
   Words.put64(b, ((int) l4) - 58904, 0L);
   Words.put64(b, ((int) l4) - 58912, 0L);
   m.g0 = l5;
   return 8;
  }
  l12 = b[((int) ((l7 = (l3 & 0xffffffffL) << 1L) + 98010L)) - 58912] & 0xff;
  l3 = b[((int) (l7 + 98009L)) - 58912] & 0xff;
  L25: {
   if (l2 + Integer.MIN_VALUE < -2147483643) { break L25; }
   l12 = Core7.f232(m, l0, l1, l2, l3, l12, l4);
   m.g0 = l5;
   final int t26 = l12;
   return t26;
  }
  l12 = Core7.f233(m, l0, l1, l2, l3, l12, l4);
  m.g0 = l5;
  final int t27 = l12;
  return t27;
 }
 throw State.trap();
}
}
