// The proved module for WebAssembly as Java; made by bindings/java/core.py.
package chinesenumber;

final class Core10 {
static int f380_1(State m, long l0, long l1, int l2, int l3, int l4, int l5, long l6, long l9, long l10, long l11, long l12, long l14, long l15, long l16, long l17, long l18, long l19, long l20, long l21, long l22, long l23, long l24, int l28, int l29, int l30, int l31) {
 final byte[] b = m.bytes;
 int exit = 0;
 PART: {
  L14: {
   L15: {
    if ((b[((int) l10) - 58872] & 0xff) == 1) { break L15; }
    l15 = l12;
    l16 = l1;
    break L14;
   }
   l17 = 0L;
   l3 = 0;
   l4 = 0;
   L16: while (true) {
    l16 = Words.get64(b, ((int) l10) - 58824);
    l15 = Words.get64(b, ((int) l10) - 58832);
    l18 = Words.get64(b, ((int) l10) - 58840);
    l19 = Words.get64(b, ((int) l10) - 58848);
    l6 = Words.get64(b, ((int) l10) - 58856);
    l20 = Words.get64(b, ((int) l10) - 58864);
    L17: {
     L18: {
      if ((l4 & 1) == 0) { break L18; }
      Words.put64(b, ((int) l10) - 58536, l16);
      Words.put64(b, ((int) l10) - 58544, l15);
      Words.put64(b, ((int) l10) - 58552, l18);
      Words.put64(b, ((int) l10) - 58560, l19);
      Words.put64(b, ((int) l10) - 58568, l6);
      Words.put64(b, ((int) l10) - 58576, l20);
      if (Core7.f235(m, l17, l10 + 336L) != 0) { break L17; }
     }
     Words.put64(b, ((int) l10) - 58704, 0L);
     Words.put64(b, ((int) l10) - 58696, 0L);
     Words.put64(b, ((int) l10) - 58688, 0L);
     Words.put64(b, ((int) l10) - 58680, 0L);
     Words.put64(b, ((int) l10) - 58672, 0L);
     Words.put64(b, ((int) l10) - 58664, 0L);
     Words.put64(b, ((int) l10) - 58656, 0L);
     Words.put64(b, ((int) l10) - 58720, 0L);
     Words.put64(b, ((int) l10) - 58728, 0L);
     Words.put64(b, ((int) l10) - 58736, 0L);
     Words.put64(b, ((int) l10) - 58744, 0L);
     Words.put64(b, ((int) l10) - 58752, 0L);
     Core8.f261(m, l10 + 160L, l12, l1, l12 + l6, l1 - l6, l2, l30);
     l3 = 1;
     L19: {
      if ((b[((int) l10) - 58752] & 0xff) == 1) { break L19; }
      Words.put64(b, ((int) l10) - 58798, l14);
      b[((int) l10) - 58799] = (byte) l30;
      b[((int) l10) - 58800] = (byte) l2;
      Words.put64(b, ((int) l10) - 58536, l16);
      Words.put64(b, ((int) l10) - 58544, l15);
      Words.put64(b, ((int) l10) - 58552, l18);
      Words.put64(b, ((int) l10) - 58560, l19);
      Words.put64(b, ((int) l10) - 58568, l6);
      Words.put64(b, ((int) l10) - 58576, l20);
      if (Core8.f263(m, l10 + 112L, l12, l1, l10 + 336L) != 0) { break L17; }
     }
     Core8.f260(m, l10 + 208L, l2, l30, l12, l1, l15, l16);
     L20: {
      if ((b[((int) l10) - 58704] & 0xff) != 1) { break L20; }
      Words.put64(b, ((int) l10) - 58712, l0 = Words.get64(b, ((int) l10) - 58656));
      Words.put64(b, ((int) l10) - 58720, l21 = Words.get64(b, ((int) l10) - 58664));
      Words.put64(b, ((int) l10) - 58728, l11 = Words.get64(b, ((int) l10) - 58672));
      Words.put64(b, ((int) l10) - 58736, l9 = Words.get64(b, ((int) l10) - 58680));
      Words.put64(b, ((int) l10) - 58744, l22 = Words.get64(b, ((int) l10) - 58688));
      Words.put64(b, ((int) l10) - 58752, l23 = Words.get64(b, ((int) l10) - 58696));
      if (Core7.f235(m, l18 + l6, l10 + 160L) == 0) { break L20; }
      L21: while (true) {
       Words.put64(b, ((int) l10) - 58768, 0L);
       Words.put64(b, ((int) l10) - 58776, 0L);
       Words.put64(b, ((int) l10) - 58784, 0L);
       Words.put64(b, ((int) l10) - 58792, 0L);
       Words.put64(b, ((int) l10) - 58800, 0L);
       Core8.f261(m, l10 + 112L, l12, l1, l12 + l22, l1 - l22, l2, l30);
       l3 = 1;
       L22: {
        if ((b[((int) l10) - 58800] & 0xff) == 1) { break L22; }
        Words.put64(b, ((int) l10) - 58808, l14);
        b[((int) l10) - 58809] = (byte) l30;
        b[((int) l10) - 58810] = (byte) l2;
        Words.put64(b, ((int) l10) - 58536, l0);
        Words.put64(b, ((int) l10) - 58544, l21);
        Words.put64(b, ((int) l10) - 58552, l11);
        Words.put64(b, ((int) l10) - 58560, l9);
        Words.put64(b, ((int) l10) - 58568, l22);
        Words.put64(b, ((int) l10) - 58576, l23);
        if (Core8.f263(m, l10 + 102L, l12, l1, l10 + 336L) != 0) { break L17; }
       }
       if (l0 == 0L) { break L20; }
       l24 = l11 + l22;
       l11 = l0;
       l9 = l21;
       L23: while (true) {
        L24: {
         L25: {
          if ((l28 = (int) b[((int) l9) - 58912]) <= -1) { break L25; }
          l0 = 1L;
          break L24;
         }
         L26: {
          if (l28 + Integer.MIN_VALUE >= 2147483616) { break L26; }
          l0 = 2L;
          break L24;
         }
         l0 = (l28 + Integer.MIN_VALUE < 2147483632) ? 3L : 4L;
        }
        Words.put64(b, ((int) l10) - 58800, 0L);
        Words.put64(b, ((int) l10) - 58792, 0L);
        Words.put64(b, ((int) l10) - 58784, 0L);
        Words.put64(b, ((int) l10) - 58776, 0L);
        Words.put64(b, ((int) l10) - 58768, 0L);
        m.fill((int) (l10 + 336L), 0, (int) 128L);
        Core8.f261(m, l10 + 112L, l12, l1, l9, l11, l2, l30);
        L27: {
         L28: {
          if ((b[((int) l10) - 58800] & 0xff) != 1) { break L28; }
          final long t29 = l22 = Words.get64(b, ((int) l10) - 58776);
          final long t30 = Words.get64(b, ((int) l10) - 58768);
          final int t31 = l28 = b[((int) l10) - 58792] & 0xff;
          l0 = t31 != 0 ? t29 : t30;
          final long t32 = Words.get64(b, ((int) l10) - 58784);
          final long t33 = l22;
          final int t34 = l28;
          l21 = t34 != 0 ? t32 : t33;
          break L27;
         }
         Core4.f119(m, l10 + 336L, l12, l1, l9, l11, l2, l30);
         L35: {
          if ((b[((int) l10) - 58576] & 0xff) != 1) { break L35; }
          l0 = Words.get64(b, ((int) l10) - 58464);
          l21 = Words.get64(b, ((int) l10) - 58472);
          l22 = Words.get64(b, ((int) l10) - 58552);
          L36: {
           L37: {
            L38: {
             switch ((int) (b[((int) l10) - 58568] & 0xffL)) {
             case 1: break L37;
             case 2: break L27;
             case 3: break L36;
             default: break L38;
             }
            }
            l0 = Words.get64(b, ((int) l10) - 58544);
            l21 = l22;
            break L27;
           }
           l21 = l0;
           l0 = Words.get64(b, ((int) l10) - 58456);
           break L27;
          }
          l21 = Words.get64(b, ((int) l10) - 58560);
          l0 = l22;
          break L27;
         }
         l9 = l9 + l0;
         if (!((l11 = l11 - l0) == 0L)) { continue L23; }
         break L20;
        }
        break L23;
       }
       Words.put64(b, ((int) l10) - 58680, l9);
       Words.put64(b, ((int) l10) - 58696, l12);
       Words.put64(b, ((int) l10) - 58704, 1L);
       Words.put64(b, ((int) l10) - 58720, l21);
       Words.put64(b, ((int) l10) - 58736, l9);
       Words.put64(b, ((int) l10) - 58752, l12);
       Words.put64(b, ((int) l10) - 58744, l22 = l1 - l11);
       Words.put64(b, ((int) l10) - 58712, l0);
       Words.put64(b, ((int) l10) - 58728, l11 = l11 - l0);
       l3 = 0;
       l23 = l12;
       if (Core7.f235(m, l24, l10 + 160L) != 0) { continue L21; }
       break L17;
      }
     }
     l3 = 0;
    }
    Core2.f53(m, l10 + 16L, l20 + (l9 = ((l4 & 1) != 0) ? l17 : 0L), l6 - l9);
    L39: {
     L40: {
      if ((l3 & 1) == 0) { break L40; }
      Core2.f53(m, l10 + 16L, l19, l18);
      break L39;
     }
     Words.put64(b, ((int) l10) - 58672, 0L);
     Words.put64(b, ((int) l10) - 58680, 0L);
     Words.put64(b, ((int) l10) - 58688, 0L);
     Words.put64(b, ((int) l10) - 58696, 0L);
     Words.put64(b, ((int) l10) - 58704, 0L);
     Core8.f261(m, l10 + 208L, l12, l1, l12 + l6, l1 - l6, l2, l30);
     L41: {
      L42: {
       L43: {
        if ((b[((int) l10) - 58704] & 0xff) != 1) { break L43; }
        if (((b[((int) l10) - 58696] & 0xff) & 255) != 0) { break L41; }
        l9 = l19;
        l0 = l18;
        L44: while (true) {
         L45: {
          if (l0 != 0L) { break L45; }
          l9 = l19;
          l20 = l18;
          L46: {
           L47: while (true) {
            l11 = l9;
            if ((l17 = l20) == 0L) { break L46; }
            l0 = 1L;
            l4 = l31 = (l29 = (int) b[((int) l11) - 58912]) & 255;
            L48: {
             if (l29 > -1) { break L48; }
             l28 = (b[((int) l11) - 58911] & 0xff) & 63;
             L49: {
              if (l29 + Integer.MIN_VALUE > 2147483615) { break L49; }
              l4 = ((l31 << 6) & 1984) | l28;
              l0 = 2L;
              break L48;
             }
             l4 = (b[((int) l11) - 58910] & 0xff) & 63;
             L50: {
              if (l29 + Integer.MIN_VALUE > 2147483631) { break L50; }
              l4 = ((l28 << 6) | ((l31 << 12) & 61440)) | l4;
              l0 = 3L;
              break L48;
             }
             l4 = ((l4 << 6) | ((l28 << 12) | ((l31 << 18) & 1835008))) | ((b[((int) l11) - 58909] & 0xff) & 63);
             l0 = 4L;
            }
            l9 = -44L;
            L51: {
             L52: while (true) {
              if ((l5 = (Words.get32(b, ((int) (l9 + 87508L)) - 58912) == l4) ? 1 : 0) != 0) { break L51; }
              l28 = (l9 != 0L) ? 1 : 0;
              l9 = l9 + 4L;
              if (l28 != 0) { continue L52; }
              break L52;
             }
            }
            l20 = l17 - l0;
            l9 = l11 + l0;
            if (l5 != 0) { continue L47; }
            break L47;
           }
           if (l29 > -1) { break L46; }
           if (l29 + Integer.MIN_VALUE < 2147483616) { break L46; }
           l28 = (b[((int) l11) - 58911] & 0xff) & 63;
           l4 = (b[((int) l11) - 58910] & 0xff) & 63;
           L53: {
            L54: {
             if (l29 + Integer.MIN_VALUE > 2147483631) { break L54; }
             l28 = ((l28 << 6) | ((l31 << 12) & 61440)) | l4;
             break L53;
            }
            l28 = ((l4 << 6) | ((l28 << 12) | ((l31 << 18) & 1835008))) | ((b[((int) l11) - 58909] & 0xff) & 63);
           }
           if (l28 != 21313) { break L46; }
           Core8.f278(m, l10 + 16L, l19, l18 - l17);
           l0 = (l29 + Integer.MIN_VALUE < 2147483632) ? 3L : 4L;
           l4 = 0;
           L55: {
            if (l18 == l17) { break L55; }
            l5 = (l28 = (int) b[((int) l19) - 58912]) & 255;
            L56: {
             if (l28 > -1) { break L56; }
             l4 = (b[((int) l19) - 58911] & 0xff) & 63;
             L57: {
              if (l28 + Integer.MIN_VALUE > 2147483615) { break L57; }
              l5 = ((l5 << 6) & 1984) | l4;
              break L56;
             }
             l29 = (b[((int) l19) - 58910] & 0xff) & 63;
             L58: {
              if (l28 + Integer.MIN_VALUE > 2147483631) { break L58; }
              l5 = ((l4 << 6) | ((l5 << 12) & 61440)) | l29;
              break L56;
             }
             l5 = ((l29 << 6) | ((l4 << 12) | ((l5 << 18) & 1835008))) | ((b[((int) l19) - 58909] & 0xff) & 63);
            }
            l9 = -44L;
            L59: while (true) {
             if ((l4 = (Words.get32(b, ((int) (l9 + 87508L)) - 58912) == l5) ? 1 : 0) != 0) { break L55; }
             l28 = (l9 != 0L) ? 1 : 0;
             l9 = l9 + 4L;
             if (l28 != 0) { continue L59; }
             break L59;
            }
           }
           l21 = l17 - l0;
           l11 = l11 + l0;
           l20 = 99437L;
           l19 = 98132L;
           l22 = 2L;
           L60: {
            L61: {
             if (l17 == l0) { break L61; }
             l5 = (l28 = (int) b[((int) l11) - 58912]) & 255;
             L62: {
              if (l28 > -1) { break L62; }
              l29 = (b[((int) l11) - 58911] & 0xff) & 63;
              L63: {
               if (l28 + Integer.MIN_VALUE > 2147483615) { break L63; }
               l5 = ((l5 << 6) & 1984) | l29;
               break L62;
              }
              l31 = (b[((int) l11) - 58910] & 0xff) & 63;
              L64: {
               if (l28 + Integer.MIN_VALUE > 2147483631) { break L64; }
               l5 = ((l29 << 6) | ((l5 << 12) & 61440)) | l31;
               break L62;
              }
              l5 = ((l31 << 6) | ((l29 << 12) | ((l5 << 18) & 1835008))) | ((b[((int) l11) - 58909] & 0xff) & 63);
             }
             l9 = -44L;
             L65: {
              L66: while (true) {
               if ((l29 = (Words.get32(b, ((int) (l9 + 87508L)) - 58912) == l5) ? 1 : 0) != 0) { break L65; }
               l28 = (l9 != 0L) ? 1 : 0;
               l9 = l9 + 4L;
               if (l28 != 0) { continue L66; }
               break L66;
              }
             }
             if (l29 == 0) { break L61; }
             l20 = 98133L;
             l19 = 83372L;
             l9 = 0L;
             l22 = 1L;
             break L60;
            }
            l9 = 1L;
           }
           Core2.f53(m, l10 + 16L, l4 != 0 ? l19 : l20, l4 != 0 ? l9 : l22);
           Core8.f278(m, l10 + 16L, l11, l21);
           break L39;
          }
          Core8.f278(m, l10 + 16L, l19, l18);
          break L39;
         }
         l28 = (l4 = (int) b[((int) l9) - 58912]) & 255;
         l11 = 1L;
         L67: {
          if (l4 > -1) { break L67; }
          l5 = (b[((int) l9) - 58911] & 0xff) & 63;
          L68: {
           if (l4 + Integer.MIN_VALUE > 2147483615) { break L68; }
           l28 = ((l28 << 6) & 1984) | l5;
           l11 = 2L;
           break L67;
          }
          l29 = (b[((int) l9) - 58910] & 0xff) & 63;
          L69: {
           if (l4 + Integer.MIN_VALUE > 2147483631) { break L69; }
           l28 = ((l5 << 6) | ((l28 << 12) & 61440)) | l29;
           l11 = 3L;
           break L67;
          }
          l28 = ((l29 << 6) | ((l5 << 12) | ((l28 << 18) & 1835008))) | ((b[((int) l9) - 58909] & 0xff) & 63);
          l11 = 4L;
         }
         if ((l28 + -48) + Integer.MIN_VALUE < -2147483638) { break L42; }
         l0 = l0 - l11;
         l9 = l9 + l11;
         if ((l28 + -65296) + Integer.MIN_VALUE > -2147483639) { continue L44; }
         break L42;
        }
       }
       Words.put64(b, ((int) l10) - 58750, l14);
       b[((int) l10) - 58751] = (byte) l30;
       b[((int) l10) - 58752] = (byte) l2;
       Words.put64(b, ((int) l10) - 58536, l16);
       Words.put64(b, ((int) l10) - 58544, l15);
       Words.put64(b, ((int) l10) - 58552, l18);
       Words.put64(b, ((int) l10) - 58560, l19);
       Words.put64(b, ((int) l10) - 58568, l6);
       Words.put64(b, ((int) l10) - 58576, l20);
       if ((Core8.f279(m, l10 + 160L, l10 + 16L, l12, l1, l10 + 336L) & 1) != 0) { break L39; }
      }
      Core2.f53(m, l10 + 16L, l19, l18);
      break L39;
     }
     L70: {
      L71: {
       if ((l28 = Words.get32(b, ((int) l10) - 58692)) != 21313) { break L71; }
       l9 = 99437L;
       l11 = 2L;
       break L70;
      }
      Core2.f63(m, l10 + 8L, l28);
      L72: {
       if ((b[((int) l10) - 58904] & 0xff) == 1) { break L72; }
       l9 = 83372L;
       l11 = 0L;
       break L70;
      }
      l9 = Words.get64(b, State.far((int) ((((b[((int) l10) - 58903] & 0xff) & 0xffffffffL) & 255L) << 3L), 102816));
      l11 = 1L;
     }
     Core2.f53(m, l10 + 16L, l9, l11);
    }
    Core8.f260(m, l10 + 40L, l2, l30, l12, l1, l15, l16);
    l17 = l18 + l6;
    l4 = 1;
    if ((b[((int) l10) - 58872] & 0xff) == 1) { continue L16; }
    break L16;
   }
  }
 }
 m.kept[0] = l0;
 m.kept[1] = l3;
 m.kept[2] = l4;
 m.kept[3] = l5;
 m.kept[4] = l6;
 m.kept[5] = l9;
 m.kept[6] = l11;
 m.kept[7] = l15;
 m.kept[8] = l16;
 m.kept[9] = l17;
 m.kept[10] = l18;
 m.kept[11] = l19;
 m.kept[12] = l20;
 m.kept[13] = l21;
 m.kept[14] = l22;
 m.kept[15] = l23;
 m.kept[16] = l24;
 m.kept[17] = l28;
 m.kept[18] = l29;
 m.kept[19] = l31;
 return exit;
}

static int f380(State m, long l0, long l1, int l2, int l3, int l4, int l5, long l6, long l7, long l8) {
 final byte[] b = m.bytes;
 long l9 = 0;
 long l10 = 0;
 long l11 = 0;
 long l12 = 0;
 long l13 = 0;
 long l14 = 0;
 long l15 = 0;
 long l16 = 0;
 long l17 = 0;
 long l18 = 0;
 long l19 = 0;
 long l20 = 0;
 long l21 = 0;
 long l22 = 0;
 long l23 = 0;
 long l24 = 0;
 long l25 = 0;
 long l26 = 0;
 long l27 = 0;
 int l28 = 0;
 int l29 = 0;
 int l30 = 0;
 int l31 = 0;
 m.g0 = l9 = m.g0 - 464L;
 L1: {
  L2: {
   L3: {
    L4: {
     if ((l10 = l9) < 16L) { break L4; }
     Words.put64(b, ((int) l8) - 58912, 0L);
     l28 = 8;
     if (l2 + Integer.MIN_VALUE > -2147483647) { break L1; }
     if (l3 + Integer.MIN_VALUE > -2147483633) { break L1; }
     L5: {
      L6: {
       if (l4 + Integer.MIN_VALUE < -2147483643) { break L6; }
       l29 = l4 = (l4 == 5) ? 1 : 0;
       break L5;
      }
      final int t7 = b[((int) ((l9 = (l4 & 0xffffffffL) << 1L) + 98010L)) - 58912] & 0xff;
      final int t8 = l4 = (((1L << l9) & 340L) != 0L) ? 1 : 0;
      l29 = t8 != 0 ? t7 : 0;
     }
     if ((l5 & -509) != 0) { break L1; }
     if (l4 == 0) { break L1; }
     l11 = l1;
     l9 = l12 = l0 + ((l0 == 0L) ? 4096L : 0L);
     L9: {
      L10: {
       L11: {
        if (l1 + Long.MIN_VALUE < -9223372036854775804L) { break L11; }
        l9 = l12;
        l11 = l1;
        L12: while (true) {
         if (((Words.get32(b, ((int) l9) - 58912) + 16776990) & 12632312) != 8421376) { break L10; }
         l9 = l9 + 3L;
         if ((l11 = l11 + -3L) + Long.MIN_VALUE > -9223372036854775805L) { continue L12; }
         break L12;
        }
       }
       if (l11 + Long.MIN_VALUE > -9223372036854775805L) { break L10; }
       L13: {
        switch ((int) l11) {
        case 1: case 2: break L10;
        case 3: break L13;
        default: break L9;
        }
       }
       if (((((Words.get16(b, ((int) l9) - 58912) & 0xffff) | ((b[((int) (l9 + 2L)) - 58912] & 0xff) << 16)) + 16776990) & 12632312) == 8421376) { break L9; }
      }
      l28 = 5;
      if (Core1.f6(m, l12, l1) == 0) { break L1; }
     }
     l30 = (l3 + Integer.MIN_VALUE < -2147483632) ? l3 : 0;
     Words.put64(b, ((int) l10) - 58888, l7);
     Words.put64(b, ((int) l10) - 58896, l6 + ((l6 == 0L) ? 4096L : 0L));
     l13 = 0L;
     Words.put64(b, ((int) l10) - 58880, 0L);
     l14 = (((((((l5 >>> 6) & 1) & 0xffffffffL) << 32L) | ((((((l5 << 12) & 65536) | ((l5 << 5) & 256)) | ((l5 >>> 2) & 1)) | ((l5 << 19) & 16777216)) & 0xffffffffL)) | (((((l5 >>> 7) & 1) & 0xffffffffL) << 40L) | (((l28 = (l5 + Integer.MIN_VALUE < -2147483392) ? 1 : 0) != 0) ? 0L : 281474976710656L))) << 8L) | ((l29 & 0xffffffffL) & 255L);
     if (l28 != 0) { break L3; }
     Words.put64(b, ((int) l10) - 58824, 0L);
     Words.put64(b, ((int) l10) - 58832, 0L);
     Words.put64(b, ((int) l10) - 58840, 0L);
     Words.put64(b, ((int) l10) - 58848, 0L);
     Words.put64(b, ((int) l10) - 58856, 0L);
     Words.put64(b, ((int) l10) - 58864, 0L);
     Words.put64(b, ((int) l10) - 58872, 0L);
     Core8.f260(m, l10 + 40L, l2, l30, l12, l1, l12, l1);
     f380_1(m, l0, l1, l2, l3, l4, l5, l6, l9, l10, l11, l12, l14, l15, l16, l17, l18, l19, l20, l21, l22, l23, l24, l28, l29, l30, l31);
     l0 = m.kept[0];
     l3 = (int) m.kept[1];
     l4 = (int) m.kept[2];
     l5 = (int) m.kept[3];
     l6 = m.kept[4];
     l9 = m.kept[5];
     l11 = m.kept[6];
     l15 = m.kept[7];
     l16 = m.kept[8];
     l17 = m.kept[9];
     l18 = m.kept[10];
     l19 = m.kept[11];
     l20 = m.kept[12];
     l21 = m.kept[13];
     l22 = m.kept[14];
     l23 = m.kept[15];
     l24 = m.kept[16];
     l28 = (int) m.kept[17];
     l29 = (int) m.kept[18];
     l31 = (int) m.kept[19];
     Core2.f53(m, l10 + 16L, l15, l16);
     break L2;
    }
    throw State.trap();
   }
   l25 = (l10 + 336L) + 16L;
   l26 = (l10 + 208L) + 16L;
   l29 = 0;
   l28 = 0;
   l21 = l12;
   l23 = l1;
   L74: while (true) {
    Words.put64(b, ((int) l10) - 58528, 0L);
    Words.put64(b, ((int) l10) - 58536, 0L);
    Words.put64(b, ((int) l10) - 58544, 0L);
    Words.put64(b, ((int) l10) - 58552, 0L);
    Words.put64(b, ((int) l10) - 58560, 0L);
    Words.put64(b, ((int) l10) - 58568, 0L);
    Words.put64(b, ((int) l10) - 58576, 0L);
    Core3.f118(m, l10 + 336L, l12, l1, l21, l23, l2, l30);
    L75: {
     L76: {
      L77: {
       if ((b[((int) l10) - 58576] & 0xff) != 1) { break L77; }
       l23 = Words.get64(b, ((int) l10) - 58528);
       l21 = Words.get64(b, ((int) l10) - 58536);
       l22 = Words.get64(b, ((int) l10) - 58544);
       l27 = Words.get64(b, ((int) l10) - 58552);
       l17 = Words.get64(b, ((int) l10) - 58560);
       l24 = Words.get64(b, ((int) l10) - 58568);
       Words.put64(b, ((int) l10) - 58808, l14);
       b[((int) l10) - 58809] = (byte) l30;
       b[((int) l10) - 58810] = (byte) l2;
       L78: {
        if ((l29 & 1) == 0) { break L78; }
        Words.put64(b, ((int) l10) - 58536, l23);
        Words.put64(b, ((int) l10) - 58544, l21);
        Words.put64(b, ((int) l10) - 58552, l22);
        Words.put64(b, ((int) l10) - 58560, l27);
        Words.put64(b, ((int) l10) - 58568, l17);
        Words.put64(b, ((int) l10) - 58576, l24);
        if (Core7.f235(m, l13, l10 + 336L) != 0) { break L75; }
       }
       Words.put64(b, ((int) l10) - 58712, l23);
       Words.put64(b, ((int) l10) - 58720, l21);
       Words.put64(b, ((int) l10) - 58728, l22);
       Words.put64(b, ((int) l10) - 58736, l27);
       Words.put64(b, ((int) l10) - 58744, l17);
       Words.put64(b, ((int) l10) - 58752, l24);
       if (Core8.f263(m, l10 + 102L, l12, l1, l10 + 160L) != 0) { break L76; }
       l9 = l22 + l17;
       l15 = l21;
       l20 = l23;
       L79: while (true) {
        Words.put64(b, ((int) l10) - 58528, 0L);
        Words.put64(b, ((int) l10) - 58536, 0L);
        Words.put64(b, ((int) l10) - 58544, 0L);
        Words.put64(b, ((int) l10) - 58552, 0L);
        Words.put64(b, ((int) l10) - 58560, 0L);
        Words.put64(b, ((int) l10) - 58568, 0L);
        Words.put64(b, ((int) l10) - 58576, 0L);
        Core3.f118(m, l10 + 336L, l12, l1, l15, l20, l2, l30);
        l28 = 0;
        if ((b[((int) l10) - 58576] & 0xff) != 1) { break L75; }
        l15 = Words.get64(b, ((int) l10) - 58536);
        l18 = Words.get64(b, ((int) l10) - 58544);
        l16 = Words.get64(b, ((int) l10) - 58552);
        l6 = Words.get64(b, ((int) l10) - 58560);
        l19 = Words.get64(b, ((int) l10) - 58568);
        Words.put64(b, ((int) l10) - 58760, l20 = Words.get64(b, ((int) l10) - 58528));
        Words.put64(b, ((int) l10) - 58768, l15);
        Words.put64(b, ((int) l10) - 58776, l18);
        Words.put64(b, ((int) l10) - 58784, l16);
        Words.put64(b, ((int) l10) - 58792, l6);
        Words.put64(b, ((int) l10) - 58800, l19);
        if (Core7.f235(m, l9, l10 + 112L) == 0) { break L75; }
        l9 = l16;
        l0 = l18;
        L80: {
         L81: {
          L82: while (true) {
           if (l0 == 0L) { break L81; }
           l28 = (l4 = (int) b[((int) l9) - 58912]) & 255;
           l11 = 1L;
           L83: {
            if (l4 > -1) { break L83; }
            l5 = (b[((int) l9) - 58911] & 0xff) & 63;
            L84: {
             if (l4 + Integer.MIN_VALUE > 2147483615) { break L84; }
             l28 = ((l28 << 6) & 1984) | l5;
             l11 = 2L;
             break L83;
            }
            l3 = (b[((int) l9) - 58910] & 0xff) & 63;
            L85: {
             if (l4 + Integer.MIN_VALUE > 2147483631) { break L85; }
             l28 = ((l5 << 6) | ((l28 << 12) & 61440)) | l3;
             l11 = 3L;
             break L83;
            }
            l28 = ((l3 << 6) | ((l5 << 12) | ((l28 << 18) & 1835008))) | ((b[((int) l9) - 58909] & 0xff) & 63);
            l11 = 4L;
           }
           if ((l28 + -48) + Integer.MIN_VALUE < -2147483638) { break L80; }
           l0 = l0 - l11;
           l9 = l9 + l11;
           if ((l28 + -65296) + Integer.MIN_VALUE >= -2147483638) { continue L82; }
           break L80;
          }
         }
         Words.put64(b, ((int) l10) - 58832, l20);
         Words.put64(b, ((int) l10) - 58840, l15);
         Words.put64(b, ((int) l10) - 58848, l18);
         Words.put64(b, ((int) l10) - 58856, l16);
         Words.put64(b, ((int) l10) - 58872, l19);
         Words.put64(b, ((int) l10) - 58864, l6);
         m.fill((int) (l10 + 336L), 0, (int) 128L);
         Core4.f119(m, l10 + 336L, l12, l1, l12 + l6, l1 - l6, l2, l30);
         Words.put64(b, ((int) l10) - 58704, b[((int) l10) - 58576] & 0xffL);
         Words.put64(b, ((int) l10) - 58696, b[((int) l10) - 58568] & 0xffL);
         m.copy((int) l26, (int) l25, (int) 112L);
         if (Core8.f264(m, l10 + 102L, l12, l1, l10 + 40L, l10 + 208L) == 0) { break L76; }
        }
        l9 = l18 + l6;
        continue L79;
       }
      }
      Core2.f53(m, l10 + 16L, l21, l23);
      break L2;
     }
     l28 = 1;
    }
    Core2.f53(m, l10 + 16L, l24 + (l9 = ((l29 & 1) != 0) ? l13 : 0L), l17 - l9);
    L86: {
     L87: {
      if ((l28 & 1) == 0) { break L87; }
      Core2.f53(m, l10 + 16L, l27, l22);
      break L86;
     }
     Words.put64(b, ((int) l10) - 58702, l14);
     b[((int) l10) - 58703] = (byte) l30;
     b[((int) l10) - 58704] = (byte) l2;
     Words.put64(b, ((int) l10) - 58536, l23);
     Words.put64(b, ((int) l10) - 58544, l21);
     Words.put64(b, ((int) l10) - 58552, l22);
     Words.put64(b, ((int) l10) - 58560, l27);
     Words.put64(b, ((int) l10) - 58568, l17);
     Words.put64(b, ((int) l10) - 58576, l24);
     if ((Core8.f279(m, l10 + 208L, l10 + 16L, l12, l1, l10 + 336L) & 1) != 0) { break L86; }
     Core2.f53(m, l10 + 16L, l27, l22);
    }
    l13 = l22 + l17;
    l29 = 1;
    continue L74;
   }
  }
  Words.put64(b, ((int) l8) - 58912, l9 = Words.get64(b, ((int) l10) - 58880));
  l28 = (l9 + Long.MIN_VALUE > l7 + Long.MIN_VALUE) ? 6 : 0;
 }
 m.g0 = l10 + 464L;
 return l28;
}

static int f382_1(State m, long l0, int l1, int l2, int l3, long l7, long l8, long l9, long l11, long l12, long l13, long l14, long l15, long l16, long l17, long l18, long l19, long l20, long l21, long l22, long l23, long l24, long l25, long l26, int l27, int l28, int l29, int l30, int l31) {
 final byte[] b = m.bytes;
 int exit = 0;
 PART: {
  L60: {
   L61: {
    L62: {
     L63: {
      L64: {
       L65: {
        L66: {
         L67: {
          L68: {
           switch (l28) {
           case 1: break L67;
           case 2: break L68;
           case 3: break L62;
           default: break L66;
           }
          }
          l17 = 100L;
          if (!(((l9 ^ 100L) | l7) == 0L)) { break L65; }
          l0 = 1L;
          l15 = 471L;
          break L63;
         }
         l16 = 10L;
         l21 = 1L;
         if (((l9 ^ 10L) | l7) == 0L) { break L64; }
         l17 = 0L;
         l0 = 0L;
         L69: {
          L70: while (true) {
           Core1.f3(m, l8 + 192L, l16, 0L, 10L, 0L);
           Core1.f3(m, l8 + 176L, l17, 0L, 0L, 10L);
           if ((((l16 = (l17 = Words.get64(b, ((int) l8) - 58720)) & -2L) ^ l9) | ((l17 = (Words.get64(b, ((int) l8) - 58712) + Words.get64(b, ((int) l8) - 58728)) + (((l17 + Words.get64(b, ((int) l8) - 58736)) + Long.MIN_VALUE < l17 + Long.MIN_VALUE) ? 1L : 0L)) ^ l7)) == 0L) { break L69; }
           if (l0 == 36L) { break L62; }
           Core1.f3(m, l8 + 160L, l16, 0L, 10L, 0L);
           Core1.f3(m, l8 + 144L, l17, 0L, 0L, 10L);
           l0 = l0 + 2L;
           if (!((((l16 = (l17 = Words.get64(b, ((int) l8) - 58752)) & -4L) ^ l9) | ((l17 = (Words.get64(b, ((int) l8) - 58744) + Words.get64(b, ((int) l8) - 58760)) + (((l17 + Words.get64(b, ((int) l8) - 58768)) + Long.MIN_VALUE < l17 + Long.MIN_VALUE) ? 1L : 0L)) ^ l7)) == 0L)) { continue L70; }
           break L70;
          }
          l0 = l0 + -1L;
         }
         l21 = l0 + 2L;
         break L64;
        }
        l0 = 1L;
        if (!(((l9 ^ 1L) | l7) == 0L)) { break L62; }
        l15 = 471L;
        break L63;
       }
       l0 = 0L;
       l21 = 1L;
       L71: while (true) {
        if (l21 == 37L) { break L62; }
        Core1.f3(m, l8 + 256L, l17, 0L, 10L, 0L);
        Core1.f3(m, l8 + 240L, l0, 0L, 0L, 10L);
        if ((((l17 = (l0 = Words.get64(b, ((int) l8) - 58656)) & -2L) ^ l9) | ((l0 = (Words.get64(b, ((int) l8) - 58648) + Words.get64(b, ((int) l8) - 58664)) + (((l0 + Words.get64(b, ((int) l8) - 58672)) + Long.MIN_VALUE < l0 + Long.MIN_VALUE) ? 1L : 0L)) ^ l7)) == 0L) { break L64; }
        Core1.f3(m, l8 + 224L, l17, 0L, 10L, 0L);
        Core1.f3(m, l8 + 208L, l0, 0L, 0L, 10L);
        l21 = l21 + 2L;
        if ((((l17 = (l0 = Words.get64(b, ((int) l8) - 58688)) & -4L) ^ l9) | ((l0 = (Words.get64(b, ((int) l8) - 58680) + Words.get64(b, ((int) l8) - 58696)) + (((l0 + Words.get64(b, ((int) l8) - 58704)) + Long.MIN_VALUE < l0 + Long.MIN_VALUE) ? 1L : 0L)) ^ l7)) != 0L) { continue L71; }
        break L71;
       }
       l21 = l21 + -1L;
      }
      final long t72 = ((l27 = (l3 == 1) ? 1 : 0) != 0) ? 69676L : 69892L;
      final long t73 = l27 != 0 ? 69244L : 69460L;
      final int t74 = l2;
      l26 = (t74 != 0 ? t72 : t73) + 108L;
      l16 = 471L;
      l12 = l24;
      l17 = l25;
      l15 = 0L;
      L75: while (true) {
       l20 = l16;
       final long t76 = l17;
       final int t77 = ((l12 | l17) == 0L) ? 1 : 0;
       final long t78 = (long) Long.numberOfLeadingZeros(l17);
       final long t79 = ((long) Long.numberOfLeadingZeros(l12)) + 64L;
       final int t80 = (l17 != 0L) ? 1 : 0;
       final int t81 = ((l0 = 124L - (l7 = t80 != 0 ? t78 : t79)) + Long.MIN_VALUE > -9223372036854775681L) ? 1 : 0;
       final int t82 = ((l16 = 0L - ((l7 + Long.MIN_VALUE > -9223372036854775684L) ? 1L : 0L)) != 0L) ? 1 : 0;
       final int t83 = (l16 == 0L) ? 1 : 0;
       l9 = ((l27 = t77 | (t83 != 0 ? t81 : t82)) != 0) ? 0L : t76;
       l7 = l27 != 0 ? 0L : l12;
       L84: {
        if (l27 != 0) { break L84; }
        if (((l0 ^ 127L) | l16) == 0L) { break L84; }
        Core1.f4(m, l8 + 128L, l12, l17, 127 - ((int) l0));
        l9 = Words.get64(b, ((int) l8) - 58776);
        l7 = Words.get64(b, ((int) l8) - 58784);
        L85: {
         L86: {
          if (((l0 = l0 + 1L) | (l13 = l16 + ((l0 == 0L) ? 1L : 0L))) == 0L) { break L86; }
          Core1.f5(m, l8 + 112L, l12, l17, (int) l0);
          l22 = 10L + -1L;
          l23 = 0L - ((10L == 0L) ? 1L : 0L);
          l16 = Words.get64(b, ((int) l8) - 58792);
          l17 = Words.get64(b, ((int) l8) - 58800);
          l14 = 0L;
          L87: while (true) {
           l11 = l14;
           l14 = (l17 = ((l23 - (l18 = (l16 << 1L) | (l17 >>> 63L))) - ((l22 + Long.MIN_VALUE < (l16 = (l17 << 1L) | (l9 >>> 63L)) + Long.MIN_VALUE) ? 1L : 0L)) >> 63L) & 1L;
           l17 = l16 - (l19 = l17 & 10L);
           l16 = l18 - ((l16 + Long.MIN_VALUE < l19 + Long.MIN_VALUE) ? 1L : 0L);
           l9 = 0L | ((l9 << 1L) | (l7 >>> 63L));
           l27 = (l0 == 0L) ? 1 : 0;
           l7 = l11 | (l7 << 1L);
           l0 = l11 = l0 + -1L;
           if (!((l11 | (l13 = l13 - (l27 & 0xffffffffL))) == 0L)) { continue L87; }
           break L85;
          }
         }
         l14 = 0L;
        }
        l9 = (l9 << 1L) | (l7 >>> 63L);
        l7 = l14 | (l7 << 1L);
       }
       Core1.f3(m, l8 + 96L, l7, l7, 10L, 0L);
       if (((l27 = Words.get32(b, ((int) (l26 + ((l12 - Words.get64(b, ((int) l8) - 58816)) << 2L))) - 58912)) + -55296) + Integer.MIN_VALUE <= 2147430399) { exit = 1; break PART; }
       b[((int) (l0 = (l8 + 494L) + (l16 = l20 + -3L))) - 58910] = (byte) ((l27 & 63) | 128);
       b[((int) l0) - 58912] = (byte) ((l27 >>> 12) | 224);
       b[((int) l0) - 58911] = (byte) (((l27 >>> 6) & 63) | 128);
       l0 = 1L;
       l12 = l7;
       l17 = l9;
       if ((l15 = l15 + 1L) != l21) { continue L75; }
       break L75;
      }
      b[((int) (l7 = (l8 + 494L) + (l15 = l20 + -6L))) - 58910] = (byte) ((l27 = l2 != 0 ? 28857 : 40670) & 191);
      b[((int) l7) - 58912] = (byte) ((l27 >>> 12) | 224);
      b[((int) l7) - 58911] = (byte) (((l27 >>> 6) & 59) | 128);
      l22 = 0L;
      L88: {
       L89: {
        switch ((int) (l21 & 4294967295L)) {
        case 0: break L63;
        case 1: break L89;
        default: break L88;
        }
       }
       l0 = 10L;
       break L63;
      }
      l27 = (int) l21;
      l7 = 10L;
      l9 = 1L;
      l17 = 0L;
      l0 = 0L;
      L90: while (true) {
       Core1.f3(m, l8 + 64L, ((l1 = l27 & 1) != 0) ? l7 : 1L, l1 != 0 ? l0 : 0L, l9, l17);
       Core1.f3(m, l8 + 80L, l7, l0, l7, l0);
       l1 = (l27 + Integer.MIN_VALUE > -2147483645) ? 1 : 0;
       l0 = Words.get64(b, ((int) l8) - 58824);
       l7 = Words.get64(b, ((int) l8) - 58832);
       l17 = Words.get64(b, ((int) l8) - 58840);
       l9 = Words.get64(b, ((int) l8) - 58848);
       l27 = l27 >>> 1;
       if (l1 != 0) { continue L90; }
       break L90;
      }
      Core1.f3(m, l8 + 48L, l9, l17, l7, l0);
      if (((l0 = Words.get64(b, ((int) l8) - 58864)) | (l22 = Words.get64(b, ((int) l8) - 58856))) == 0L) { exit = 1; break PART; }
     }
     final long t91 = l25;
     final int t92 = (((l0 | l22) == 0L) | ((l24 | l25) == 0L)) ? 1 : 0;
     final long t93 = (long) Long.numberOfLeadingZeros(l22);
     final long t94 = ((long) Long.numberOfLeadingZeros(l0)) + 64L;
     final int t95 = (l22 != 0L) ? 1 : 0;
     final long t96 = l7 = t95 != 0 ? t93 : t94;
     final long t97 = (long) Long.numberOfLeadingZeros(l25);
     final long t98 = ((long) Long.numberOfLeadingZeros(l24)) + 64L;
     final int t99 = (l25 != 0L) ? 1 : 0;
     final int t100 = ((l14 = t96 - (l9 = t99 != 0 ? t97 : t98)) + Long.MIN_VALUE > -9223372036854775681L) ? 1 : 0;
     final int t101 = ((l16 = 0L - ((l7 + Long.MIN_VALUE < l9 + Long.MIN_VALUE) ? 1L : 0L)) != 0L) ? 1 : 0;
     final int t102 = (l16 == 0L) ? 1 : 0;
     l9 = ((l27 = t92 | (t102 != 0 ? t100 : t101)) != 0) ? 0L : t91;
     l7 = l27 != 0 ? 0L : l24;
     if (l27 != 0) { break L60; }
     if (((l14 ^ 127L) | l16) == 0L) { break L60; }
     Core1.f4(m, l8 + 16L, l24, l25, 127 - ((int) l14));
     l17 = Words.get64(b, ((int) l8) - 58888);
     l7 = Words.get64(b, ((int) l8) - 58896);
     L103: {
      if (((l9 = l14 + 1L) | (l13 = l16 + ((l9 == 0L) ? 1L : 0L))) == 0L) { break L103; }
      Core1.f5(m, l8, l24, l25, (int) l9);
      l23 = l0 + -1L;
      l12 = l22 - ((l0 == 0L) ? 1L : 0L);
      l11 = Words.get64(b, ((int) l8) - 58904);
      l16 = Words.get64(b, ((int) l8) - 58912);
      l14 = 0L;
      L104: while (true) {
       l18 = l14;
       l11 = ((l14 = (l11 << 1L) | (l16 >>> 63L)) - ((l14 = ((l12 - l14) - ((l23 + Long.MIN_VALUE < (l16 = (l16 << 1L) | (l17 >>> 63L)) + Long.MIN_VALUE) ? 1L : 0L)) >> 63L) & l22)) - ((l16 + Long.MIN_VALUE < (l19 = l14 & l0) + Long.MIN_VALUE) ? 1L : 0L);
       l14 = l14 & 1L;
       l16 = l16 - l19;
       l17 = 0L | ((l17 << 1L) | (l7 >>> 63L));
       l27 = (l9 == 0L) ? 1 : 0;
       l7 = l18 | (l7 << 1L);
       l9 = l18 = l9 + -1L;
       if (!((l18 | (l13 = l13 - (l27 & 0xffffffffL))) == 0L)) { continue L104; }
       break L61;
      }
     }
     l14 = 0L;
     break L61;
    }
    m.fill((int) (l8 + 965L), 0, (int) 235L);
    L105: {
     final int t106 = (l24 + Long.MIN_VALUE < -9213372036854775808L) ? 1 : 0;
     final int t107 = (l25 == 0L) ? 1 : 0;
     if ((t107 != 0 ? t106 : 0) != 0) { break L105; }
     if ((l31 & 255) == 0) { exit = 2; break PART; }
    }
    Words.put32(b, ((int) l8) - 57710, 0);
    b[((int) l8) - 57711] = (byte) l30;
    b[((int) l8) - 57712] = (byte) l29;
    Words.put16(b, ((int) l8) - 57706, (short) 0);
    final int t108 = (int) l8;
    final long t109 = ((l27 = (l3 == 1) ? 1 : 0) != 0) ? 69676L : 69892L;
    final long t110 = l27 != 0 ? 69244L : 69460L;
    final int t111 = l2;
    Words.put64(b, t108 - 57704, l16 = t111 != 0 ? t109 : t110);
    L112: {
     if ((l17 = 235L - (l0 = Core2.f49(m, l8 + 965L, l8 + 1200L, l31, 0, l24, l25))) == 0L) { break L112; }
     m.copy((int) (((l8 + 494L) + l0) + 236L), (int) ((l8 + 965L) + l0), (int) l17);
    }
    L113: {
     L114: {
      if (((l17 = (l8 + 494L) + (l0 = l0 + 230L)) - 99439L) + Long.MIN_VALUE > -9223372036854775803L) { break L114; }
      Words.put16(b, ((int) l17) - 58908, (short) 35769);
      Words.put32(b, ((int) l17) - 58912, -460945179);
      break L113;
     }
     Words.put16(b, ((int) l17) - 58908, (short) (Words.get16(b, State.far((int) 0L, 99443)) & 0xffff));
     Words.put32(b, ((int) l17) - 58912, Words.get32(b, State.far((int) 0L, 99439)));
    }
    m.fill((int) (l8 + 965L), 0, (int) 235L);
    L115: {
     if ((l31 & 255) != 0) { break L115; }
     final int t116 = (l9 + Long.MIN_VALUE > -9213372036854775809L) ? 1 : 0;
     final int t117 = (l7 != 0L) ? 1 : 0;
     final int t118 = (l7 == 0L) ? 1 : 0;
     if ((t118 != 0 ? t116 : t117) != 0) { exit = 2; break PART; }
    }
    Words.put32(b, ((int) l8) - 57710, 0);
    b[((int) l8) - 57711] = (byte) l30;
    b[((int) l8) - 57712] = (byte) l29;
    Words.put16(b, ((int) l8) - 57706, (short) 0);
    Words.put64(b, ((int) l8) - 57704, l16);
    l9 = Core2.f49(m, l8 + 965L, l8 + 1200L, l31, 0, l9, l7);
    if (((l27 = Words.get32(b, ((int) (l16 + 112L)) - 58912)) + -55296) + Integer.MIN_VALUE <= 2147430399) { exit = 1; break PART; }
    l16 = (l8 + 965L) + l9;
    l7 = 0L;
    L119: {
     L120: {
      if (l9 == 235L) { break L120; }
      l3 = (l1 = (int) b[((int) l16) - 58912]) & 255;
      l17 = 1L;
      L121: {
       if (l1 > -1) { break L121; }
       l28 = (b[((int) l16) - 58911] & 0xff) & 63;
       L122: {
        if (l1 + Integer.MIN_VALUE > 2147483615) { break L122; }
        l3 = ((l3 << 6) & 1984) | l28;
        l17 = 2L;
        break L121;
       }
       l29 = (b[((int) l16) - 58910] & 0xff) & 63;
       L123: {
        if (l1 + Integer.MIN_VALUE > 2147483631) { break L123; }
        l3 = ((l28 << 6) | ((l3 << 12) & 61440)) | l29;
        l17 = 3L;
        break L121;
       }
       l3 = ((l29 << 6) | ((l28 << 12) | ((l3 << 18) & 1835008))) | ((b[((int) l16) - 58909] & 0xff) & 63);
       l17 = 4L;
      }
      l7 = 235L - l9;
      L124: {
       if (l3 != l27) { break L124; }
       Words.put64(b, ((int) l8) - 57688, 0L);
       Words.put64(b, ((int) l8) - 57696, 0L);
       Words.put64(b, ((int) l8) - 57704, 0L);
       Words.put64(b, ((int) l8) - 57712, 0L);
       Core3.f86(m, l8 + 1200L, l14 = l16 + l17, l13 = l7 - l17);
       if ((b[((int) l8) - 57712] & 0xff) != 1) { break L124; }
       Core2.f61(m, l8 + 40L, Words.get32(b, ((int) l8) - 57704));
       if ((b[((int) l8) - 58872] & 0xff) != 1) { break L124; }
       if (((b[((int) l8) - 58871] & 0xff) & 255) + Integer.MIN_VALUE > -2147483643) { break L124; }
       Words.put64(b, ((int) l8) - 57688, 0L);
       Words.put64(b, ((int) l8) - 57696, 0L);
       Words.put64(b, ((int) l8) - 57704, 0L);
       Words.put64(b, ((int) l8) - 57712, 0L);
       l27 = 1;
       l9 = l14;
       l17 = l13;
       L125: while (true) {
        Core3.f86(m, l8 + 1200L, l9, l17);
        L126: {
         if ((b[((int) l8) - 57712] & 0xff) == 1) { break L126; }
         l16 = l14;
         l7 = l13;
         break L124;
        }
        l17 = Words.get64(b, ((int) l8) - 57688);
        l9 = Words.get64(b, ((int) l8) - 57696);
        Core2.f61(m, l8 + 32L, Words.get32(b, ((int) l8) - 57704));
        if ((b[((int) l8) - 58880] & 0xff) != 1) { break L124; }
        l3 = l27 & 255;
        l27 = l1 = b[((int) l8) - 58879] & 0xff;
        if (l3 + Integer.MIN_VALUE < (l1 & 255) + Integer.MIN_VALUE) { continue L125; }
        break L125;
       }
      }
      if (((l17 = (l8 + 494L) + (l0 = l0 - l7)) - l16) + Long.MIN_VALUE >= l7 + Long.MIN_VALUE) { break L120; }
      if (!(l7 == 0L)) { break L119; }
      exit = 3; break PART;
     }
     if (l7 == 0L) { exit = 3; break PART; }
    }
    m.copy((int) l17, (int) l16, (int) l7);
    exit = 3; break PART;
   }
   l9 = (l17 << 1L) | (l7 >>> 63L);
   l7 = l14 | (l7 << 1L);
  }
 }
 m.kept[0] = l0;
 m.kept[1] = l1;
 m.kept[2] = l3;
 m.kept[3] = l7;
 m.kept[4] = l9;
 m.kept[5] = l11;
 m.kept[6] = l12;
 m.kept[7] = l13;
 m.kept[8] = l14;
 m.kept[9] = l15;
 m.kept[10] = l16;
 m.kept[11] = l17;
 m.kept[12] = l18;
 m.kept[13] = l19;
 m.kept[14] = l20;
 m.kept[15] = l21;
 m.kept[16] = l22;
 m.kept[17] = l23;
 m.kept[18] = l26;
 m.kept[19] = l27;
 m.kept[20] = l28;
 m.kept[21] = l29;
 return exit;
}

static int f382(State m, long l0, int l1, int l2, int l3, long l4, long l5, long l6) {
 final byte[] b = m.bytes;
 long l7 = 0;
 long l8 = 0;
 long l9 = 0;
 long l10 = 0;
 long l11 = 0;
 long l12 = 0;
 long l13 = 0;
 long l14 = 0;
 long l15 = 0;
 long l16 = 0;
 long l17 = 0;
 long l18 = 0;
 long l19 = 0;
 long l20 = 0;
 long l21 = 0;
 long l22 = 0;
 long l23 = 0;
 long l24 = 0;
 long l25 = 0;
 long l26 = 0;
 int l27 = 0;
 int l28 = 0;
 int l29 = 0;
 int l30 = 0;
 int l31 = 0;
 m.g0 = l7 = m.g0 - 1232L;
 L1: {
  L2: {
   L3: {
    if ((l8 = l7) < 16L) { break L3; }
    Words.put64(b, ((int) l6) - 58912, 0L);
    l27 = 8;
    if (l2 + Integer.MIN_VALUE > -2147483647) { break L1; }
    if (l3 + Integer.MIN_VALUE > -2147483647) { break L1; }
    if ((l28 = Words.get32(b, ((int) (l0 + 32L)) - 58912)) + Integer.MIN_VALUE > -2147483645) { break L1; }
    l29 = b[((int) ((l2 & 0xffffffffL) + 83500L)) - 58912] & 0xff;
    l30 = b[((int) ((l3 & 0xffffffffL) + 83500L)) - 58912] & 0xff;
    l7 = Words.get64(b, ((int) (l0 + 24L)) - 58912);
    l9 = Words.get64(b, ((int) (l0 + 16L)) - 58912);
    l10 = Words.get64(b, ((int) l0) - 58904);
    l11 = Words.get64(b, ((int) l0) - 58912);
    L4: {
     L5: {
      L6: {
       L7: {
        L8: {
         L9: {
          L10: {
           if (l1 + Integer.MIN_VALUE < -2147483643) { break L10; }
           if (l1 != 5) { break L1; }
           l12 = 0L;
           final long t11 = 0L - l11;
           final long t12 = l11;
           final int t13 = l27 = (l10 < 0L) ? 1 : 0;
           l13 = t13 != 0 ? t11 : t12;
           final long t14 = 0L - (l10 + ((l11 != 0L) ? 1L : 0L));
           final long t15 = l10;
           final int t16 = l27;
           l14 = t16 != 0 ? t14 : t15;
           L17: {
            L18: {
             L19: {
              L20: {
               L21: {
                L22: {
                 switch (l28) {
                 case 1: break L21;
                 case 2: break L22;
                 case 3: break L17;
                 default: break L20;
                 }
                }
                if (!(((l9 ^ 100L) | l7) == 0L)) { break L18; }
                l15 = 1L;
                l9 = 100L;
                l7 = 0L;
                break L6;
               }
               l15 = 10L;
               if (!(((l9 ^ 10L) | l7) == 0L)) { break L19; }
               l7 = 0L;
               l9 = 10L;
               l12 = 0L;
               break L6;
              }
              l15 = 1L;
              if (!(((l9 ^ 1L) | l7) == 0L)) { break L17; }
              l7 = 0L;
              l9 = 1L;
              l12 = 0L;
              break L6;
             }
             l16 = 10L;
             l17 = 0L;
             l0 = 0L;
             L23: while (true) {
              Core1.f3(m, l8 + 400L, l16, 0L, 10L, 0L);
              Core1.f3(m, l8 + 384L, l17, 0L, 0L, 10L);
              if ((((l16 = (l17 = Words.get64(b, ((int) l8) - 58512)) & -2L) ^ l9) | ((l17 = (Words.get64(b, ((int) l8) - 58504) + Words.get64(b, ((int) l8) - 58520)) + (((l17 + Words.get64(b, ((int) l8) - 58528)) + Long.MIN_VALUE < l17 + Long.MIN_VALUE) ? 1L : 0L)) ^ l7)) == 0L) { break L8; }
              if (l0 == 36L) { break L17; }
              Core1.f3(m, l8 + 368L, l16, 0L, 10L, 0L);
              Core1.f3(m, l8 + 352L, l17, 0L, 0L, 10L);
              l0 = l0 + 2L;
              if ((((l16 = (l17 = Words.get64(b, ((int) l8) - 58544)) & -4L) ^ l9) | ((l17 = (Words.get64(b, ((int) l8) - 58536) + Words.get64(b, ((int) l8) - 58552)) + (((l17 + Words.get64(b, ((int) l8) - 58560)) + Long.MIN_VALUE < l17 + Long.MIN_VALUE) ? 1L : 0L)) ^ l7)) == 0L) { break L9; }
              continue L23;
             }
            }
            l17 = 0L;
            l16 = 100L;
            l0 = 1L;
            L24: while (true) {
             if (l0 == 37L) { break L17; }
             Core1.f3(m, l8 + 464L, l16, 0L, 10L, 0L);
             Core1.f3(m, l8 + 448L, l17, 0L, 0L, 10L);
             if ((((l16 = (l17 = Words.get64(b, ((int) l8) - 58448)) & -2L) ^ l9) | ((l17 = (Words.get64(b, ((int) l8) - 58440) + Words.get64(b, ((int) l8) - 58456)) + (((l17 + Words.get64(b, ((int) l8) - 58464)) + Long.MIN_VALUE < l17 + Long.MIN_VALUE) ? 1L : 0L)) ^ l7)) == 0L) { break L7; }
             Core1.f3(m, l8 + 432L, l16, 0L, 10L, 0L);
             Core1.f3(m, l8 + 416L, l17, 0L, 0L, 10L);
             l0 = l0 + 2L;
             if (!((((l16 = (l17 = Words.get64(b, ((int) l8) - 58480)) & -4L) ^ l9) | ((l17 = (Words.get64(b, ((int) l8) - 58472) + Words.get64(b, ((int) l8) - 58488)) + (((l17 + Words.get64(b, ((int) l8) - 58496)) + Long.MIN_VALUE < l17 + Long.MIN_VALUE) ? 1L : 0L)) ^ l7)) == 0L)) { continue L24; }
             break L24;
            }
            l0 = l0 + -1L;
            break L7;
           }
           final long t25 = l14;
           final long t26 = l7;
           final int t27 = (l13 + Long.MIN_VALUE > l9 + Long.MIN_VALUE) ? 1 : 0;
           final int t28 = (l14 + Long.MIN_VALUE > l7 + Long.MIN_VALUE) ? 1 : 0;
           final int t29 = (l14 == l7) ? 1 : 0;
           l17 = ((l27 = t29 != 0 ? t27 : t28) != 0) ? t25 : t26;
           l0 = l27 != 0 ? l13 : l9;
           break L5;
          }
          if (((1L << (l0 = (l1 & 0xffffffffL) << 1L)) & 340L) == 0L) { break L1; }
          l31 = b[((int) (l0 + 98010L)) - 58912] & 0xff;
          break L4;
         }
         l0 = l0 + -1L;
        }
        l0 = l0 + 2L;
       }
       l15 = 1L;
       L30: {
        L31: {
         switch ((int) (l0 & 4294967295L)) {
         case 0: break L6;
         case 1: break L31;
         default: break L30;
         }
        }
        l15 = 10L;
        break L6;
       }
       l27 = (int) l0;
       l0 = 10L;
       l16 = 1L;
       l18 = 0L;
       l17 = 0L;
       L32: while (true) {
        Core1.f3(m, l8 + 320L, ((l1 = l27 & 1) != 0) ? l0 : 1L, l1 != 0 ? l17 : 0L, l16, l18);
        Core1.f3(m, l8 + 336L, l0, l17, l0, l17);
        l1 = (l27 + Integer.MIN_VALUE > -2147483645) ? 1 : 0;
        l17 = Words.get64(b, ((int) l8) - 58568);
        l0 = Words.get64(b, ((int) l8) - 58576);
        l18 = Words.get64(b, ((int) l8) - 58584);
        l16 = Words.get64(b, ((int) l8) - 58592);
        l27 = l27 >>> 1;
        if (l1 != 0) { continue L32; }
        break L32;
       }
       Core1.f3(m, l8 + 304L, l16, l18, l0, l17);
       if (((l15 = Words.get64(b, ((int) l8) - 58608)) | (l12 = Words.get64(b, ((int) l8) - 58600))) == 0L) { break L3; }
      }
      final long t33 = l14;
      final int t34 = (((l15 | l12) == 0L) | ((l13 | l14) == 0L)) ? 1 : 0;
      final long t35 = (long) Long.numberOfLeadingZeros(l12);
      final long t36 = ((long) Long.numberOfLeadingZeros(l15)) + 64L;
      final int t37 = (l12 != 0L) ? 1 : 0;
      final long t38 = l0 = t37 != 0 ? t35 : t36;
      final long t39 = (long) Long.numberOfLeadingZeros(l14);
      final long t40 = ((long) Long.numberOfLeadingZeros(l13)) + 64L;
      final int t41 = (l14 != 0L) ? 1 : 0;
      final int t42 = ((l19 = t38 - (l17 = t41 != 0 ? t39 : t40)) + Long.MIN_VALUE > -9223372036854775681L) ? 1 : 0;
      final int t43 = ((l18 = 0L - ((l0 + Long.MIN_VALUE < l17 + Long.MIN_VALUE) ? 1L : 0L)) != 0L) ? 1 : 0;
      final int t44 = (l18 == 0L) ? 1 : 0;
      l17 = ((l27 = t34 | (t44 != 0 ? t42 : t43)) != 0) ? 0L : t33;
      l0 = l27 != 0 ? 0L : l13;
      if (l27 != 0) { break L5; }
      if (((l19 ^ 127L) | l18) == 0L) { break L5; }
      Core1.f4(m, l8 + 288L, l13, l14, 127 - ((int) l19));
      l16 = Words.get64(b, ((int) l8) - 58616);
      l0 = Words.get64(b, ((int) l8) - 58624);
      L45: {
       L46: {
        if (((l17 = l19 + 1L) | (l18 = l18 + ((l17 == 0L) ? 1L : 0L))) == 0L) { break L46; }
        Core1.f5(m, l8 + 272L, l13, l14, (int) l17);
        l20 = l15 + -1L;
        l21 = l12 - ((l15 == 0L) ? 1L : 0L);
        l19 = Words.get64(b, ((int) l8) - 58632);
        l14 = Words.get64(b, ((int) l8) - 58640);
        l13 = 0L;
        L47: while (true) {
         l22 = l13;
         l19 = ((l13 = (l19 << 1L) | (l14 >>> 63L)) - ((l13 = ((l21 - l13) - ((l20 + Long.MIN_VALUE < (l14 = (l14 << 1L) | (l16 >>> 63L)) + Long.MIN_VALUE) ? 1L : 0L)) >> 63L) & l12)) - ((l14 + Long.MIN_VALUE < (l23 = l13 & l15) + Long.MIN_VALUE) ? 1L : 0L);
         l13 = l13 & 1L;
         l14 = l14 - l23;
         l16 = 0L | ((l16 << 1L) | (l0 >>> 63L));
         l27 = (l17 == 0L) ? 1 : 0;
         l0 = l22 | (l0 << 1L);
         l17 = l22 = l17 + -1L;
         if (!((l22 | (l18 = l18 - (l27 & 0xffffffffL))) == 0L)) { continue L47; }
         break L45;
        }
       }
       l13 = 0L;
      }
      l17 = (l16 << 1L) | (l0 >>> 63L);
      l0 = l13 | (l0 << 1L);
     }
     final int t48 = (l0 + Long.MIN_VALUE < -9213372036854775808L) ? 1 : 0;
     final int t49 = (l17 == 0L) ? 1 : 0;
     final int t50 = ((t49 != 0 ? t48 : 0) != 0) ? 2 : 1;
     final int t51 = (l2 == 1) ? 1 : 0;
     l31 = t51 != 0 ? t50 : 1;
    }
    m.fill((int) (l8 + 494L), 0, (int) 471L);
    L52: {
     if (!((l9 | l7) == 0L)) { break L52; }
     l27 = 12;
     break L1;
    }
    l22 = 0L;
    final long t53 = 0L - l11;
    final long t54 = l11;
    final int t55 = l27 = (l10 < 0L) ? 1 : 0;
    l24 = t55 != 0 ? t53 : t54;
    final long t56 = 0L - (l10 + ((l11 != 0L) ? 1L : 0L));
    final long t57 = l10;
    final int t58 = l27;
    l25 = t58 != 0 ? t56 : t57;
    L59: {
     final int x127 = f382_1(m, l0, l1, l2, l3, l7, l8, l9, l11, l12, l13, l14, l15, l16, l17, l18, l19, l20, l21, l22, l23, l24, l25, l26, l27, l28, l29, l30, l31);
     l0 = m.kept[0];
     l1 = (int) m.kept[1];
     l3 = (int) m.kept[2];
     l7 = m.kept[3];
     l9 = m.kept[4];
     l11 = m.kept[5];
     l12 = m.kept[6];
     l13 = m.kept[7];
     l14 = m.kept[8];
     l15 = m.kept[9];
     l16 = m.kept[10];
     l17 = m.kept[11];
     l18 = m.kept[12];
     l19 = m.kept[13];
     l20 = m.kept[14];
     l21 = m.kept[15];
     l22 = m.kept[16];
     l23 = m.kept[17];
     l26 = m.kept[18];
     l27 = (int) m.kept[19];
     l28 = (int) m.kept[20];
     l29 = (int) m.kept[21];
     switch (x127) {
     case 1: break L3;
     case 2: break L2;
     case 3: break L59;
     }
     m.fill((int) (l8 + 965L), 0, (int) 235L);
     L128: {
      if ((l31 & 255) != 0) { break L128; }
      final int t129 = (l7 + Long.MIN_VALUE > -9213372036854775809L) ? 1 : 0;
      final int t130 = (l9 != 0L) ? 1 : 0;
      final int t131 = (l9 == 0L) ? 1 : 0;
      if ((t131 != 0 ? t129 : t130) != 0) { break L2; }
     }
     Words.put32(b, ((int) l8) - 57710, 0);
     b[((int) l8) - 57711] = (byte) l30;
     b[((int) l8) - 57712] = (byte) l29;
     Words.put16(b, ((int) l8) - 57706, (short) 0);
     final int t132 = (int) l8;
     final long t133 = ((l27 = (l3 == 1) ? 1 : 0) != 0) ? 69676L : 69892L;
     final long t134 = l27 != 0 ? 69244L : 69460L;
     final int t135 = l2;
     Words.put64(b, t132 - 57704, l17 = t135 != 0 ? t133 : t134);
     l9 = (l8 + 494L) + (l0 = l15 - (l7 = 235L - (l16 = Core2.f49(m, l8 + 965L, l8 + 1200L, l31, 0, l7, l9))));
     L136: {
      if (l7 == 0L) { break L136; }
      m.copy((int) l9, (int) ((l8 + 965L) + l16), (int) l7);
     }
     if (l28 != 2) { break L59; }
     L137: {
      L138: {
       if (((l7 = l9 + -6L) - 99439L) + Long.MIN_VALUE > -9223372036854775803L) { break L138; }
       b[((int) l7) - 58912] = (byte) 229;
       b[((int) (l9 + -1L)) - 58912] = (byte) 139;
       Words.put32(b, ((int) (l9 + -5L)) - 58912, -1176205688);
       break L137;
      }
      Words.put16(b, ((int) l7) - 58908, (short) (Words.get16(b, State.far((int) 0L, 99443)) & 0xffff));
      Words.put32(b, ((int) l7) - 58912, Words.get32(b, State.far((int) 0L, 99439)));
     }
     if (((l27 = Words.get32(b, ((int) (l17 + 156L)) - 58912)) + -55296) + Integer.MIN_VALUE <= 2147430399) { break L3; }
     b[((int) (l7 = (l8 + 494L) + (l0 = l0 + -9L))) - 58910] = (byte) ((l27 & 63) | 128);
     b[((int) l7) - 58912] = (byte) ((l27 >>> 12) | 224);
     b[((int) l7) - 58911] = (byte) (((l27 >>> 6) & 63) | 128);
    }
    L139: {
     if (l10 > -1L) { break L139; }
     b[((int) (l7 = (l8 + 494L) + (l0 = l0 + -3L))) - 58910] = (byte) ((l27 = l2 != 0 ? 36127 : 36000) | 128);
     b[((int) l7) - 58912] = (byte) 232;
     b[((int) l7) - 58911] = (byte) ((l27 >>> 6) | 128);
    }
    Words.put64(b, ((int) l6) - 58912, l7 = 471L - l0);
    L140: {
     if (l5 + Long.MIN_VALUE >= l7 + Long.MIN_VALUE) { break L140; }
     l27 = 6;
     break L1;
    }
    L141: {
     if (l7 == 0L) { break L141; }
     m.copy((int) (l4 + ((l4 == 0L) ? 4096L : 0L)), (int) ((l8 + 494L) + l0), (int) l7);
    }
    l27 = 0;
    break L1;
   }
   throw State.trap();
  }
  l27 = (l10 > -1L) ? 3 : 4;
 }
 m.g0 = l8 + 1232L;
 return l27;
}

static int f384(State m, long l0, long l1, int l2, int l3, long l4) {
 return Core8.f288(m, l0 + ((l0 == 0L) ? 4096L : 0L), l1, l2, l3, l4);
}

static int f386(State m, long l0, long l1, long l2, long l3, long l4, int l5, int l6, int l7, int l8, long l9, long l10, long l11, long l12, long l13, long l14, long l15) {
 final byte[] b = m.bytes;
 long l16 = 0;
 long l17 = 0;
 long l18 = 0;
 long l19 = 0;
 long l20 = 0;
 long l21 = 0;
 long l22 = 0;
 long l23 = 0;
 long l24 = 0;
 long l25 = 0;
 long l26 = 0;
 long l27 = 0;
 long l28 = 0;
 long l29 = 0;
 int l30 = 0;
 int l31 = 0;
 int l32 = 0;
 int l33 = 0;
 int l34 = 0;
 int l35 = 0;
 m.g0 = l16 = m.g0 - 272L;
 L1: {
  L2: {
   L3: {
    L4: {
     L5: {
      L6: {
       if ((l17 = l16) < 16L) { break L6; }
       L7: {
        L8: {
         if (l6 + Integer.MIN_VALUE > -2147483644) { break L8; }
         l30 = b[((int) (((l6 & 0xffffffffL) << 1L) + 98010L)) - 58912] & 0xff;
         l31 = (l6 == 0) ? 1 : 0;
         break L7;
        }
        if (l6 != 5) { break L5; }
        l31 = 1;
        l30 = 0;
       }
       if ((l8 | l7) + Integer.MIN_VALUE > -2147483647) { break L5; }
       if (l5 + Integer.MIN_VALUE > -2147483639) { break L5; }
       l32 = b[((int) ((l8 & 0xffffffffL) + 83500L)) - 58912] & 0xff;
       l33 = b[((int) ((l7 & 0xffffffffL) + 83500L)) - 58912] & 0xff;
       m.fill((int) (l17 + 13L), 0, (int) 235L);
       l18 = 0L;
       final long t9 = l14;
       final long t10 = l16 = l10 - ((l10 != 0L) ? 1L : 0L);
       final int t11 = (l14 + Long.MIN_VALUE < l16 + Long.MIN_VALUE) ? 1 : 0;
       final long t12 = l16 = t11 != 0 ? t9 : t10;
       final long t13 = l1;
       final int t14 = (l16 + Long.MIN_VALUE < l1 + Long.MIN_VALUE) ? 1 : 0;
       if ((l19 = t14 != 0 ? t12 : t13) == 0L) { break L2; }
       l20 = l13 + ((l13 == 0L) ? 4096L : 0L);
       l21 = l11 + ((l11 == 0L) ? 4096L : 0L);
       l22 = l2 + ((l2 == 0L) ? 4096L : 0L);
       l23 = l0 + ((l0 == 0L) ? 4096L : 0L);
       final long t15 = ((l8 = (l8 == 1) ? 1 : 0) != 0) ? 69676L : 69892L;
       final long t16 = l8 != 0 ? 69244L : 69460L;
       final int t17 = l7;
       l16 = t17 != 0 ? t15 : t16;
       l24 = l4 >>> 3L;
       l25 = l4 & 7L;
       l34 = ((l6 + Integer.MIN_VALUE < -2147483643) ? 1 : 0) & l31;
       l26 = (l5 << 5) & 0xffffffffL;
       l27 = (l17 + 248L) | 2L;
       l4 = Words.get64(b, ((int) (l28 = l9 + ((l9 == 0L) ? 4096L : 0L))) - 58912);
       if (l5 + Integer.MIN_VALUE > -2147483644) { break L4; }
       l29 = l26 & 224L;
       l18 = 0L;
       L18: while (true) {
        l0 = l4;
        l9 = Words.get64(b, ((int) (l23 + (l18 << 3L))) - 58912);
        L19: {
         L20: {
          if ((l10 = ((l14 = l18 + l25) >>> 3L) + l24) + Long.MIN_VALUE >= l3 + Long.MIN_VALUE) { break L20; }
          if ((((b[((int) (l22 + l10)) - 58912] & 0xff) >>> (((int) l14) & 7)) & 1) != 0) { break L20; }
          l1 = 0L;
          l11 = 83372L;
          l8 = 10;
          break L19;
         }
         l1 = 0L;
         l11 = 83372L;
         L21: {
          final int t22 = (Words.get64(b, ((int) (l29 + 67888L)) - 58912) + Long.MIN_VALUE < l9 + Long.MIN_VALUE) ? 1 : 0;
          final int t23 = (Words.get64(b, ((int) (l29 + 67896L)) - 58912) == 0L) ? 1 : 0;
          if ((t23 != 0 ? t22 : 0) == 0) { break L21; }
          l8 = 7;
          break L19;
         }
         L24: {
          if (l34 == 0) { break L24; }
          Words.put16(b, ((int) l17) - 58648, (short) 0);
          l1 = 0L;
          Words.put64(b, ((int) l17) - 58656, 0L);
          Words.put64(b, ((int) l17) - 58664, 0L);
          L25: {
           if (l9 + Long.MIN_VALUE < -9223372036854765808L) { break L25; }
           l1 = 0L;
           l14 = l17 + 248L;
           L26: while (true) {
            Words.put16(b, ((int) l14) - 58912, (short) ((l10 = l9) - ((l9 = Long.divideUnsigned(l10, 10000L)) * 10000L)));
            l14 = l14 + 2L;
            l1 = l1 + 1L;
            if (l10 + Long.MIN_VALUE > -9223372036754775809L) { continue L26; }
            break L26;
           }
          }
          l11 = ((l9 + Long.MIN_VALUE > -9223372036854775799L) ? 2L : 1L) + ((l9 + Long.MIN_VALUE > -9223372036854775709L) ? 1L : 0L);
          l2 = (l9 + Long.MIN_VALUE > -9223372036854774809L) ? 1L : 0L;
          l14 = 235L;
          L27: {
           if (l1 == 0L) { break L27; }
           l13 = l17 + 248L;
           L28: while (true) {
            Words.put32(b, ((int) ((l10 = (l17 + 13L) + l14) + -4L)) - 58912, Words.get32(b, ((int) (l16 + (((((l31 = (l8 = Words.get16(b, ((int) l13) - 58912) & 0xffff) - ((l5 = (int) ((l8 & 0xffffffffL) / 100L)) * 100)) - ((l31 = (int) (((l31 & 255) & 0xffffffffL) / 10L)) * 10)) << 2) & 0xffffffffL) & 252L))) - 58912));
            Words.put32(b, ((int) (l10 + -7L)) - 58912, Words.get32(b, ((int) (l16 + ((l31 << 2) & 0xffffffffL))) - 58912));
            Words.put32(b, ((int) (l10 + -10L)) - 58912, Words.get32(b, ((int) (l16 + ((((int) ((l5 & 0xffffffffL) % 10L)) << 2) & 0xffffffffL))) - 58912));
            Words.put32(b, ((int) (l10 + -13L)) - 58912, Words.get32(b, ((int) (l16 + ((((int) ((l8 & 0xffffffffL) / 1000L)) << 2) & 0xffffffffL))) - 58912));
            l13 = l13 + 2L;
            l14 = l14 + -12L;
            if ((l1 = l1 + -1L) != 0L) { continue L28; }
            break L28;
           }
          }
          l10 = l11 + l2;
          l8 = (int) l9;
          L29: while (true) {
           Words.put32(b, ((int) (((l17 + 13L) + l14) + -4L)) - 58912, Words.get32(b, ((int) (l16 + ((((l8 - ((l5 = (int) (((l8 & 65535) & 0xffffffffL) / 10L)) * 10)) << 2) & 0xffffffffL) & 65532L))) - 58912));
           l14 = l14 + -3L;
           l8 = l5;
           if ((l10 = l10 + -1L) != 0L) { continue L29; }
           break L29;
          }
          l1 = 235L - l14;
          l11 = (l17 + 13L) + l14;
          l8 = 0;
          break L19;
         }
         final int t30 = l30;
         final int t31 = ((l8 = (l9 + Long.MIN_VALUE < -9213372036854775808L) ? 1 : 0) != 0) ? 2 : 1;
         final int t32 = (l7 == 1) ? 1 : 0;
         final int t33 = t32 != 0 ? t31 : 1;
         final int t34 = (l6 + Integer.MIN_VALUE < -2147483643) ? 1 : 0;
         l5 = t34 != 0 ? t30 : t33;
         L35: {
          if (l8 != 0) { break L35; }
          if ((l5 & 255) != 0) { break L35; }
          l8 = 3;
          break L19;
         }
         l8 = 0;
         Words.put32(b, ((int) l27) - 58912, 0);
         Words.put16(b, ((int) l27) - 58908, (short) 0);
         b[((int) l17) - 58663] = (byte) l32;
         b[((int) l17) - 58664] = (byte) l33;
         Words.put64(b, ((int) l17) - 58656, l16);
         l1 = 235L - (l14 = Core2.f49(m, l17 + 13L, l17 + 248L, l5, 0, l9, 0L));
         l11 = (l17 + 13L) + l14;
        }
        if (l12 + Long.MIN_VALUE < l0 + Long.MIN_VALUE) { break L2; }
        if ((l12 - l0) + Long.MIN_VALUE < l1 + Long.MIN_VALUE) { break L2; }
        l4 = l1 + l0;
        L36: {
         L37: {
          if (((l9 = l21 + l0) - l11) + Long.MIN_VALUE >= l1 + Long.MIN_VALUE) { break L37; }
          l13 = l1 & 3L;
          l10 = 0L;
          L38: {
           if (l1 + Long.MIN_VALUE < -9223372036854775804L) { break L38; }
           l2 = l1 & -4L;
           l10 = 0L;
           L39: while (true) {
            b[((int) (l14 = l9 + l10)) - 58912] = (byte) (b[((int) (l1 = l11 + l10)) - 58912] & 0xff);
            b[((int) (l14 + 1L)) - 58912] = (byte) (b[((int) (l1 + 1L)) - 58912] & 0xff);
            b[((int) (l14 + 2L)) - 58912] = (byte) (b[((int) (l1 + 2L)) - 58912] & 0xff);
            b[((int) (l14 + 3L)) - 58912] = (byte) (b[((int) (l1 + 3L)) - 58912] & 0xff);
            if (l2 != (l10 = l10 + 4L)) { continue L39; }
            break L39;
           }
           if (l13 == 0L) { break L36; }
          }
          l14 = l11 + l10;
          l10 = l21 + (l0 + l10);
          L40: while (true) {
           b[((int) l10) - 58912] = (byte) (b[((int) l14) - 58912] & 0xff);
           l10 = l10 + 1L;
           l14 = l14 + 1L;
           if ((l13 = l13 + -1L) != 0L) { continue L40; }
           break L36;
          }
         }
         if (l1 == 0L) { break L36; }
         m.copy((int) l9, (int) l11, (int) l1);
        }
        Words.put32(b, ((int) (l20 + (l18 << 2L))) - 58912, l8);
        Words.put64(b, ((int) (l28 + ((l18 = l18 + 1L) << 3L))) - 58912, l4);
        if (l18 != l19) { continue L18; }
        break L3;
       }
      }
      throw State.trap();
     }
     Words.put64(b, ((int) l15) - 58912, 0L);
     l8 = 8;
     break L1;
    }
    l35 = Words.get32(b, ((int) (l16 + 104L)) - 58912);
    l0 = l17 + 9L;
    l18 = 0L;
    L41: while (true) {
     l29 = l4;
     l2 = Words.get64(b, ((int) (l23 + (l18 << 3L))) - 58912);
     L42: {
      L43: {
       if ((l10 = ((l14 = l18 + l25) >>> 3L) + l24) + Long.MIN_VALUE >= l3 + Long.MIN_VALUE) { break L43; }
       if ((((b[((int) (l22 + l10)) - 58912] & 0xff) >>> (((int) l14) & 7)) & 1) != 0) { break L43; }
       l1 = 0L;
       l11 = 83372L;
       l8 = 10;
       break L42;
      }
      l1 = 0L;
      l11 = 83372L;
      L44: {
       final int t45 = (Words.get64(b, ((int) (l14 = l26 + ((l2 < 0L) ? 67904L : 67888L))) - 58912) + Long.MIN_VALUE < (l9 = (l2 ^ (l10 = l2 >> 63L)) - l10) + Long.MIN_VALUE) ? 1 : 0;
       final int t46 = (Words.get64(b, ((int) l14) - 58904) == 0L) ? 1 : 0;
       if ((t46 != 0 ? t45 : 0) == 0) { break L44; }
       l8 = 7;
       break L42;
      }
      L47: {
       if (l34 != 0) { break L47; }
       final int t48 = l30;
       final int t49 = ((l8 = (l9 + Long.MIN_VALUE < -9213372036854775808L) ? 1 : 0) != 0) ? 2 : 1;
       final int t50 = (l7 == 1) ? 1 : 0;
       final int t51 = t50 != 0 ? t49 : 1;
       final int t52 = (l6 + Integer.MIN_VALUE < -2147483643) ? 1 : 0;
       l5 = t52 != 0 ? t48 : t51;
       L53: {
        L54: {
         if (l8 != 0) { break L54; }
         if ((l5 & 255) == 0) { break L53; }
        }
        l8 = 0;
        Words.put32(b, ((int) l27) - 58912, 0);
        Words.put16(b, ((int) l27) - 58908, (short) 0);
        b[((int) l17) - 58663] = (byte) l32;
        b[((int) l17) - 58664] = (byte) l33;
        Words.put64(b, ((int) l17) - 58656, l16);
        l1 = 235L - (l14 = Core2.f49(m, l17 + 13L, l17 + 248L, l5, (int) (l2 >>> 63L), l9, 0L));
        l11 = (l17 + 13L) + l14;
        break L42;
       }
       l8 = (l2 > -1L) ? 3 : 4;
       break L42;
      }
      Words.put16(b, ((int) l17) - 58648, (short) 0);
      l1 = 0L;
      Words.put64(b, ((int) l17) - 58656, 0L);
      Words.put64(b, ((int) l17) - 58664, 0L);
      L55: {
       if (l9 + Long.MIN_VALUE < -9223372036854765808L) { break L55; }
       l1 = 0L;
       l14 = l17 + 248L;
       L56: while (true) {
        Words.put16(b, ((int) l14) - 58912, (short) ((l10 = l9) - ((l9 = Long.divideUnsigned(l10, 10000L)) * 10000L)));
        l14 = l14 + 2L;
        l1 = l1 + 1L;
        if (l10 + Long.MIN_VALUE > -9223372036754775809L) { continue L56; }
        break L56;
       }
      }
      l11 = ((l9 + Long.MIN_VALUE > -9223372036854775799L) ? 2L : 1L) + ((l9 + Long.MIN_VALUE > -9223372036854775709L) ? 1L : 0L);
      l4 = (l9 + Long.MIN_VALUE > -9223372036854774809L) ? 1L : 0L;
      l14 = 235L;
      L57: {
       if (l1 == 0L) { break L57; }
       l13 = l17 + 248L;
       L58: while (true) {
        Words.put32(b, ((int) ((l10 = (l17 + 13L) + l14) + -4L)) - 58912, Words.get32(b, ((int) (l16 + (((((l31 = (l8 = Words.get16(b, ((int) l13) - 58912) & 0xffff) - ((l5 = (int) ((l8 & 0xffffffffL) / 100L)) * 100)) - ((l31 = (int) (((l31 & 255) & 0xffffffffL) / 10L)) * 10)) << 2) & 0xffffffffL) & 252L))) - 58912));
        Words.put32(b, ((int) (l10 + -7L)) - 58912, Words.get32(b, ((int) (l16 + ((l31 << 2) & 0xffffffffL))) - 58912));
        Words.put32(b, ((int) (l10 + -10L)) - 58912, Words.get32(b, ((int) (l16 + ((((int) ((l5 & 0xffffffffL) % 10L)) << 2) & 0xffffffffL))) - 58912));
        Words.put32(b, ((int) (l10 + -13L)) - 58912, Words.get32(b, ((int) (l16 + ((((int) ((l8 & 0xffffffffL) / 1000L)) << 2) & 0xffffffffL))) - 58912));
        l13 = l13 + 2L;
        l14 = l14 + -12L;
        if ((l1 = l1 + -1L) != 0L) { continue L58; }
        break L58;
       }
      }
      l10 = l11 + l4;
      l8 = (int) l9;
      L59: while (true) {
       Words.put32(b, ((int) (l0 + l14)) - 58912, Words.get32(b, ((int) (l16 + ((((l8 - ((l5 = (int) (((l8 & 65535) & 0xffffffffL) / 10L)) * 10)) << 2) & 0xffffffffL) & 65532L))) - 58912));
       l14 = l14 + -3L;
       l8 = l5;
       if ((l10 = l10 + -1L) != 0L) { continue L59; }
       break L59;
      }
      L60: {
       if (l2 > -1L) { break L60; }
       Words.put32(b, ((int) (l0 + l14)) - 58912, l35);
       l14 = l14 + -3L;
      }
      l1 = 235L - l14;
      l11 = (l17 + 13L) + l14;
      l8 = 0;
     }
     if (l12 + Long.MIN_VALUE < l29 + Long.MIN_VALUE) { break L2; }
     if ((l12 - l29) + Long.MIN_VALUE < l1 + Long.MIN_VALUE) { break L2; }
     l4 = l1 + l29;
     L61: {
      L62: {
       if (((l9 = l21 + l29) - l11) + Long.MIN_VALUE >= l1 + Long.MIN_VALUE) { break L62; }
       l13 = l1 & 3L;
       l10 = 0L;
       L63: {
        if (l1 + Long.MIN_VALUE < -9223372036854775804L) { break L63; }
        l2 = l1 & -4L;
        l10 = 0L;
        L64: while (true) {
         b[((int) (l14 = l9 + l10)) - 58912] = (byte) (b[((int) (l1 = l11 + l10)) - 58912] & 0xff);
         b[((int) (l14 + 1L)) - 58912] = (byte) (b[((int) (l1 + 1L)) - 58912] & 0xff);
         b[((int) (l14 + 2L)) - 58912] = (byte) (b[((int) (l1 + 2L)) - 58912] & 0xff);
         b[((int) (l14 + 3L)) - 58912] = (byte) (b[((int) (l1 + 3L)) - 58912] & 0xff);
         if (l2 != (l10 = l10 + 4L)) { continue L64; }
         break L64;
        }
        if (l13 == 0L) { break L61; }
       }
       l14 = l11 + l10;
       l10 = l21 + (l29 + l10);
       L65: while (true) {
        b[((int) l10) - 58912] = (byte) (b[((int) l14) - 58912] & 0xff);
        l10 = l10 + 1L;
        l14 = l14 + 1L;
        if ((l13 = l13 + -1L) != 0L) { continue L65; }
        break L61;
       }
      }
      if (l1 == 0L) { break L61; }
      m.copy((int) l9, (int) l11, (int) l1);
     }
     Words.put32(b, ((int) (l20 + (l18 << 2L))) - 58912, l8);
     Words.put64(b, ((int) (l28 + ((l18 = l18 + 1L) << 3L))) - 58912, l4);
     if (l18 != l19) { continue L41; }
     break L41;
    }
   }
   l18 = l19;
  }
  Words.put64(b, ((int) l15) - 58912, l18);
  l8 = (l18 == l19) ? 0 : 6;
 }
 m.g0 = l17 + 272L;
 return l8;
}

static int f388(State m, long l0, long l1, long l2, long l3, long l4, int l5, int l6, int l7, int l8, long l9, long l10, long l11, long l12, long l13, long l14, long l15) {
 final byte[] b = m.bytes;
 long l16 = 0;
 long l17 = 0;
 long l18 = 0;
 long l19 = 0;
 long l20 = 0;
 long l21 = 0;
 long l22 = 0;
 long l23 = 0;
 long l24 = 0;
 long l25 = 0;
 long l26 = 0;
 long l27 = 0;
 long l28 = 0;
 long l29 = 0;
 long l30 = 0;
 int l31 = 0;
 int l32 = 0;
 int l33 = 0;
 int l34 = 0;
 int l35 = 0;
 int l36 = 0;
 int l37 = 0;
 m.g0 = l16 = m.g0 - 272L;
 L1: {
  if ((l17 = l16) < 16L) { break L1; }
  L2: {
   L3: {
    L4: {
     L5: {
      if (l6 + Integer.MIN_VALUE > -2147483644) { break L5; }
      l31 = b[((int) (((l6 & 0xffffffffL) << 1L) + 98010L)) - 58912] & 0xff;
      l32 = (l6 == 0) ? 1 : 0;
      break L4;
     }
     if (l6 != 5) { break L3; }
     l32 = 1;
     l31 = 0;
    }
    if ((l8 | l7) + Integer.MIN_VALUE > -2147483647) { break L3; }
    if (l5 + Integer.MIN_VALUE > -2147483639) { break L3; }
    l33 = b[((int) ((l8 & 0xffffffffL) + 83500L)) - 58912] & 0xff;
    l34 = b[((int) ((l7 & 0xffffffffL) + 83500L)) - 58912] & 0xff;
    m.fill((int) (l17 + 13L), 0, (int) 235L);
    l18 = 0L;
    L6: {
     final long t7 = l14;
     final long t8 = l16 = l10 - ((l10 != 0L) ? 1L : 0L);
     final int t9 = (l14 + Long.MIN_VALUE < l16 + Long.MIN_VALUE) ? 1 : 0;
     final long t10 = l16 = t9 != 0 ? t7 : t8;
     final long t11 = l1;
     final int t12 = (l16 + Long.MIN_VALUE < l1 + Long.MIN_VALUE) ? 1 : 0;
     if ((l19 = t12 != 0 ? t10 : t11) == 0L) { break L6; }
     l20 = l13 + ((l13 == 0L) ? 4096L : 0L);
     l21 = l11 + ((l11 == 0L) ? 4096L : 0L);
     l22 = l2 + ((l2 == 0L) ? 4096L : 0L);
     l23 = l0 + ((l0 == 0L) ? 4096L : 0L);
     final long t13 = ((l8 = (l8 == 1) ? 1 : 0) != 0) ? 69676L : 69892L;
     final long t14 = l8 != 0 ? 69244L : 69460L;
     final int t15 = l7;
     l35 = Words.get32(b, ((int) ((l13 = t15 != 0 ? t13 : t14) + 104L)) - 58912);
     l24 = l4 >>> 3L;
     l25 = l4 & 7L;
     l27 = (l26 = (l5 << 5) & 0xffffffffL) & 224L;
     l28 = l17 + 9L;
     l29 = (l17 + 248L) | 2L;
     l4 = Words.get64(b, ((int) (l30 = l9 + ((l9 == 0L) ? 4096L : 0L))) - 58912);
     l18 = 0L;
     L16: while (true) {
      l0 = l4;
      l9 = Words.get64(b, ((int) (l16 = l23 + (l18 << 4L))) - 58904);
      l16 = Words.get64(b, ((int) l16) - 58912);
      L17: {
       L18: {
        if ((l10 = ((l14 = l18 + l25) >>> 3L) + l24) + Long.MIN_VALUE >= l3 + Long.MIN_VALUE) { break L18; }
        if ((((b[((int) (l22 + l10)) - 58912] & 0xff) >>> (((int) l14) & 7)) & 1) != 0) { break L18; }
        l10 = 0L;
        l11 = 83372L;
        l8 = 10;
        break L17;
       }
       L19: {
        if (l5 + Integer.MIN_VALUE < -2147483643) { break L19; }
        l10 = 0L;
        l11 = 83372L;
        L20: {
         final long t21 = 0L - l16;
         final long t22 = l16;
         final int t23 = l8 = (l9 < 0L) ? 1 : 0;
         final int t24 = ((l14 = t23 != 0 ? t21 : t22) + Long.MIN_VALUE > Words.get64(b, ((int) (l1 = l26 + (l8 != 0 ? 67904L : 67888L))) - 58912) + Long.MIN_VALUE) ? 1 : 0;
         final long t25 = 0L - (l9 + ((l16 != 0L) ? 1L : 0L));
         final long t26 = l9;
         final int t27 = l8;
         final int t28 = ((l16 = t27 != 0 ? t25 : t26) + Long.MIN_VALUE > (l1 = Words.get64(b, ((int) l1) - 58904)) + Long.MIN_VALUE) ? 1 : 0;
         final int t29 = (l16 == l1) ? 1 : 0;
         if ((t29 != 0 ? t24 : t28) == 0) { break L20; }
         l8 = 7;
         break L17;
        }
        L30: {
         L31: {
          L32: {
           if (l6 + Integer.MIN_VALUE < -2147483643) { break L32; }
           final int t33 = (l14 + Long.MIN_VALUE < -9213372036854775808L) ? 1 : 0;
           final int t34 = (l16 == 0L) ? 1 : 0;
           final int t35 = ((t34 != 0 ? t33 : 0) != 0) ? 2 : 1;
           final int t36 = (l7 == 1) ? 1 : 0;
           l36 = t36 != 0 ? t35 : 1;
           break L31;
          }
          L37: {
           if (l32 == 0) { break L37; }
           Words.put16(b, ((int) l17) - 58648, (short) 0);
           l10 = 0L;
           Words.put64(b, ((int) l17) - 58656, 0L);
           Words.put64(b, ((int) l17) - 58664, 0L);
           L38: {
            if (l16 == 0L) { break L38; }
            l2 = (l14 >>> 42L) | (l16 << 22L);
            l1 = l16 >>> 4L;
            l16 = l17 + 248L;
            l10 = 0L;
            L39: while (true) {
             Words.put16(b, ((int) (l16 + 6L)) - 58912, (short) Long.divideUnsigned(l14 = (((l2 = (((l1 = ((l1 - ((l11 = Long.divideUnsigned(l1, 152587890625L)) * 152587890625L)) << 26L) | (l2 & 67108863L)) - ((l1 = Long.divideUnsigned(l1, 152587890625L)) * 152587890625L)) << 26L) | ((l14 >>> 16L) & 67108863L)) - ((l2 = Long.divideUnsigned(l2, 152587890625L)) * 152587890625L)) << 16L) | (l14 & 65535L), 1000000000000L));
             Words.put16(b, ((int) (l16 + 4L)) - 58912, (short) ((int) ((((int) (l4 = Long.divideUnsigned(l14, 100000000L))) & 0xffffffffL) % 10000L)));
             Words.put16(b, ((int) (l16 + 2L)) - 58912, (short) (l36 = (int) (((l8 = (int) (l14 - (l4 * 100000000L))) & 0xffffffffL) / 10000L)));
             Words.put16(b, ((int) l16) - 58912, (short) (l8 - (l36 * 10000)));
             l2 = ((l14 = (l4 = l11 << 52L) + (l2 + (l1 << 26L))) >>> 42L) | ((l11 = (l11 >>> 12L) + ((l14 + Long.MIN_VALUE < l4 + Long.MIN_VALUE) ? 1L : 0L)) << 22L);
             l1 = l11 >>> 4L;
             l16 = l16 + 8L;
             l10 = l10 + 4L;
             if (l11 != 0L) { continue L39; }
             break L39;
            }
           }
           L40: {
            if (l14 + Long.MIN_VALUE < -9223372036854765808L) { break L40; }
            l16 = (l17 + 248L) + (l10 << 1L);
            L41: while (true) {
             Words.put16(b, ((int) l16) - 58912, (short) ((l1 = l14) - ((l14 = Long.divideUnsigned(l1, 10000L)) * 10000L)));
             l16 = l16 + 2L;
             l10 = l10 + 1L;
             if (l1 + Long.MIN_VALUE > -9223372036754775809L) { continue L41; }
             break L41;
            }
           }
           l2 = ((l14 + Long.MIN_VALUE > -9223372036854775799L) ? 2L : 1L) + ((l14 + Long.MIN_VALUE > -9223372036854775709L) ? 1L : 0L);
           l4 = (l14 + Long.MIN_VALUE > -9223372036854774809L) ? 1L : 0L;
           l16 = 235L;
           L42: {
            if (l10 == 0L) { break L42; }
            l11 = l17 + 248L;
            L43: while (true) {
             Words.put32(b, ((int) ((l1 = (l17 + 13L) + l16) + -4L)) - 58912, Words.get32(b, ((int) (l13 + (((((l37 = (l8 = Words.get16(b, ((int) l11) - 58912) & 0xffff) - ((l36 = (int) ((l8 & 0xffffffffL) / 100L)) * 100)) - ((l37 = (int) (((l37 & 255) & 0xffffffffL) / 10L)) * 10)) << 2) & 0xffffffffL) & 252L))) - 58912));
             Words.put32(b, ((int) (l1 + -7L)) - 58912, Words.get32(b, ((int) (l13 + ((l37 << 2) & 0xffffffffL))) - 58912));
             Words.put32(b, ((int) (l1 + -10L)) - 58912, Words.get32(b, ((int) (l13 + ((((int) ((l36 & 0xffffffffL) % 10L)) << 2) & 0xffffffffL))) - 58912));
             Words.put32(b, ((int) (l1 + -13L)) - 58912, Words.get32(b, ((int) (l13 + ((((int) ((l8 & 0xffffffffL) / 1000L)) << 2) & 0xffffffffL))) - 58912));
             l11 = l11 + 2L;
             l16 = l16 + -12L;
             if ((l10 = l10 + -1L) != 0L) { continue L43; }
             break L43;
            }
           }
           l10 = l2 + l4;
           l8 = (int) l14;
           L44: while (true) {
            Words.put32(b, ((int) (l28 + l16)) - 58912, Words.get32(b, ((int) (l13 + ((((l8 - ((l36 = (int) (((l8 & 65535) & 0xffffffffL) / 10L)) * 10)) << 2) & 0xffffffffL) & 65532L))) - 58912));
            l16 = l16 + -3L;
            l8 = l36;
            if ((l10 = l10 + -1L) != 0L) { continue L44; }
            break L44;
           }
           L45: {
            if (l9 > -1L) { break L45; }
            Words.put32(b, ((int) (l28 + l16)) - 58912, l35);
            l16 = l16 + -3L;
           }
           l10 = 235L - l16;
           l11 = (l17 + 13L) + l16;
           l8 = 0;
           break L17;
          }
          l36 = l31;
          if ((l31 & 255) != 0) { break L31; }
          l10 = 0L;
          l36 = l31;
          final int t46 = (l14 + Long.MIN_VALUE > -9213372036854775809L) ? 1 : 0;
          final int t47 = (l16 != 0L) ? 1 : 0;
          final int t48 = (l16 == 0L) ? 1 : 0;
          if ((t48 != 0 ? t46 : t47) != 0) { break L30; }
         }
         l8 = 0;
         Words.put32(b, ((int) l29) - 58912, 0);
         Words.put16(b, ((int) l29) - 58908, (short) 0);
         b[((int) l17) - 58663] = (byte) l33;
         b[((int) l17) - 58664] = (byte) l34;
         Words.put64(b, ((int) l17) - 58656, l13);
         l10 = 235L - (l16 = Core2.f49(m, l17 + 13L, l17 + 248L, l36, (int) (l9 >>> 63L), l14, l16));
         l11 = (l17 + 13L) + l16;
         break L17;
        }
        l8 = (l9 > -1L) ? 3 : 4;
        break L17;
       }
       l10 = 0L;
       l11 = 83372L;
       L49: {
        final int t50 = (l16 + Long.MIN_VALUE > Words.get64(b, ((int) (l27 + 67888L)) - 58912) + Long.MIN_VALUE) ? 1 : 0;
        final int t51 = (l9 + Long.MIN_VALUE > (l14 = Words.get64(b, ((int) (l27 + 67896L)) - 58912)) + Long.MIN_VALUE) ? 1 : 0;
        final int t52 = (l9 == l14) ? 1 : 0;
        if ((t52 != 0 ? t50 : t51) == 0) { break L49; }
        l8 = 7;
        break L17;
       }
       L53: {
        L54: {
         if (l6 + Integer.MIN_VALUE < -2147483643) { break L54; }
         final int t55 = (l16 + Long.MIN_VALUE < -9213372036854775808L) ? 1 : 0;
         final int t56 = (l9 == 0L) ? 1 : 0;
         final int t57 = ((t56 != 0 ? t55 : 0) != 0) ? 2 : 1;
         final int t58 = (l7 == 1) ? 1 : 0;
         l36 = t58 != 0 ? t57 : 1;
         break L53;
        }
        L59: {
         if (l32 == 0) { break L59; }
         Words.put16(b, ((int) l17) - 58648, (short) 0);
         l10 = 0L;
         Words.put64(b, ((int) l17) - 58656, 0L);
         Words.put64(b, ((int) l17) - 58664, 0L);
         L60: {
          if (l9 == 0L) { break L60; }
          l2 = (l16 >>> 42L) | (l9 << 22L);
          l1 = l9 >>> 4L;
          l14 = l17 + 248L;
          l10 = 0L;
          L61: while (true) {
           Words.put16(b, ((int) (l14 + 6L)) - 58912, (short) Long.divideUnsigned(l16 = (((l9 = (((l1 = ((l1 - ((l11 = Long.divideUnsigned(l1, 152587890625L)) * 152587890625L)) << 26L) | (l2 & 67108863L)) - ((l1 = Long.divideUnsigned(l1, 152587890625L)) * 152587890625L)) << 26L) | ((l16 >>> 16L) & 67108863L)) - ((l9 = Long.divideUnsigned(l9, 152587890625L)) * 152587890625L)) << 16L) | (l16 & 65535L), 1000000000000L));
           Words.put16(b, ((int) (l14 + 4L)) - 58912, (short) ((int) ((((int) (l2 = Long.divideUnsigned(l16, 100000000L))) & 0xffffffffL) % 10000L)));
           Words.put16(b, ((int) (l14 + 2L)) - 58912, (short) (l36 = (int) (((l8 = (int) (l16 - (l2 * 100000000L))) & 0xffffffffL) / 10000L)));
           Words.put16(b, ((int) l14) - 58912, (short) (l8 - (l36 * 10000)));
           l2 = ((l16 = (l2 = l11 << 52L) + (l9 + (l1 << 26L))) >>> 42L) | ((l11 = (l11 >>> 12L) + ((l16 + Long.MIN_VALUE < l2 + Long.MIN_VALUE) ? 1L : 0L)) << 22L);
           l1 = l11 >>> 4L;
           l14 = l14 + 8L;
           l10 = l10 + 4L;
           if (l11 != 0L) { continue L61; }
           break L61;
          }
         }
         L62: {
          if (l16 + Long.MIN_VALUE < -9223372036854765808L) { break L62; }
          l14 = (l17 + 248L) + (l10 << 1L);
          L63: while (true) {
           Words.put16(b, ((int) l14) - 58912, (short) ((l1 = l16) - ((l16 = Long.divideUnsigned(l1, 10000L)) * 10000L)));
           l14 = l14 + 2L;
           l10 = l10 + 1L;
           if (l1 + Long.MIN_VALUE > -9223372036754775809L) { continue L63; }
           break L63;
          }
         }
         l9 = ((l16 + Long.MIN_VALUE > -9223372036854775799L) ? 2L : 1L) + ((l16 + Long.MIN_VALUE > -9223372036854775709L) ? 1L : 0L);
         l2 = (l16 + Long.MIN_VALUE > -9223372036854774809L) ? 1L : 0L;
         l14 = 235L;
         L64: {
          if (l10 == 0L) { break L64; }
          l11 = l17 + 248L;
          L65: while (true) {
           Words.put32(b, ((int) ((l1 = (l17 + 13L) + l14) + -4L)) - 58912, Words.get32(b, ((int) (l13 + (((((l37 = (l8 = Words.get16(b, ((int) l11) - 58912) & 0xffff) - ((l36 = (int) ((l8 & 0xffffffffL) / 100L)) * 100)) - ((l37 = (int) (((l37 & 255) & 0xffffffffL) / 10L)) * 10)) << 2) & 0xffffffffL) & 252L))) - 58912));
           Words.put32(b, ((int) (l1 + -7L)) - 58912, Words.get32(b, ((int) (l13 + ((l37 << 2) & 0xffffffffL))) - 58912));
           Words.put32(b, ((int) (l1 + -10L)) - 58912, Words.get32(b, ((int) (l13 + ((((int) ((l36 & 0xffffffffL) % 10L)) << 2) & 0xffffffffL))) - 58912));
           Words.put32(b, ((int) (l1 + -13L)) - 58912, Words.get32(b, ((int) (l13 + ((((int) ((l8 & 0xffffffffL) / 1000L)) << 2) & 0xffffffffL))) - 58912));
           l11 = l11 + 2L;
           l14 = l14 + -12L;
           if ((l10 = l10 + -1L) != 0L) { continue L65; }
           break L65;
          }
         }
         l10 = l9 + l2;
         l8 = (int) l16;
         L66: while (true) {
          Words.put32(b, ((int) (((l17 + 13L) + l14) + -4L)) - 58912, Words.get32(b, ((int) (l13 + ((((l8 - ((l36 = (int) (((l8 & 65535) & 0xffffffffL) / 10L)) * 10)) << 2) & 0xffffffffL) & 65532L))) - 58912));
          l14 = l14 + -3L;
          l8 = l36;
          if ((l10 = l10 + -1L) != 0L) { continue L66; }
          break L66;
         }
         l10 = 235L - l14;
         l11 = (l17 + 13L) + l14;
         l8 = 0;
         break L17;
        }
        l36 = l31;
        if ((l31 & 255) != 0) { break L53; }
        l36 = l31;
        final int t67 = (l16 + Long.MIN_VALUE > -9213372036854775809L) ? 1 : 0;
        final int t68 = (l9 != 0L) ? 1 : 0;
        final int t69 = (l9 == 0L) ? 1 : 0;
        if ((t69 != 0 ? t67 : t68) == 0) { break L53; }
        l8 = 3;
        break L17;
       }
       l8 = 0;
       Words.put32(b, ((int) l29) - 58912, 0);
       Words.put16(b, ((int) l29) - 58908, (short) 0);
       b[((int) l17) - 58663] = (byte) l33;
       b[((int) l17) - 58664] = (byte) l34;
       Words.put64(b, ((int) l17) - 58656, l13);
       l10 = 235L - (l16 = Core2.f49(m, l17 + 13L, l17 + 248L, l36, 0, l16, l9));
       l11 = (l17 + 13L) + l16;
      }
      if (l12 + Long.MIN_VALUE < l0 + Long.MIN_VALUE) { break L6; }
      if ((l12 - l0) + Long.MIN_VALUE < l10 + Long.MIN_VALUE) { break L6; }
      l4 = l10 + l0;
      L70: {
       L71: {
        if (((l9 = l21 + l0) - l11) + Long.MIN_VALUE >= l10 + Long.MIN_VALUE) { break L71; }
        l1 = l10 & 3L;
        l14 = 0L;
        L72: {
         if (l10 + Long.MIN_VALUE < -9223372036854775804L) { break L72; }
         l2 = l10 & -4L;
         l14 = 0L;
         L73: while (true) {
          b[((int) (l16 = l9 + l14)) - 58912] = (byte) (b[((int) (l10 = l11 + l14)) - 58912] & 0xff);
          b[((int) (l16 + 1L)) - 58912] = (byte) (b[((int) (l10 + 1L)) - 58912] & 0xff);
          b[((int) (l16 + 2L)) - 58912] = (byte) (b[((int) (l10 + 2L)) - 58912] & 0xff);
          b[((int) (l16 + 3L)) - 58912] = (byte) (b[((int) (l10 + 3L)) - 58912] & 0xff);
          if (l2 != (l14 = l14 + 4L)) { continue L73; }
          break L73;
         }
         if (l1 == 0L) { break L70; }
        }
        l16 = l11 + l14;
        l14 = l21 + (l0 + l14);
        L74: while (true) {
         b[((int) l14) - 58912] = (byte) (b[((int) l16) - 58912] & 0xff);
         l14 = l14 + 1L;
         l16 = l16 + 1L;
         if ((l1 = l1 + -1L) != 0L) { continue L74; }
         break L70;
        }
       }
       if (l10 == 0L) { break L70; }
       m.copy((int) l9, (int) l11, (int) l10);
      }
      Words.put32(b, ((int) (l20 + (l18 << 2L))) - 58912, l8);
      Words.put64(b, ((int) (l30 + ((l18 = l18 + 1L) << 3L))) - 58912, l4);
      if (l18 != l19) { continue L16; }
      break L16;
     }
     l18 = l19;
    }
    Words.put64(b, ((int) l15) - 58912, l18);
    l8 = (l18 == l19) ? 0 : 6;
    break L2;
   }
   Words.put64(b, ((int) l15) - 58912, 0L);
   l8 = 8;
  }
  m.g0 = l17 + 272L;
  final int t75 = l8;
  return t75;
 }
 throw State.trap();
}

static int f390(State m, long l0, long l1, int l2, int l3, int l4, int l5, int l6, long l7, long l8, long l9, long l10, long l11) {
 final byte[] b = m.bytes;
 long l12 = 0;
 long l13 = 0;
 long l14 = 0;
 long l15 = 0;
 long l16 = 0;
 long l17 = 0;
 long l18 = 0;
 long l19 = 0;
 long l20 = 0;
 long l21 = 0;
 long l22 = 0;
 long l23 = 0;
 long l24 = 0;
 int l25 = 0;
 int l26 = 0;
 int l27 = 0;
 m.g0 = l12 = m.g0 - 944L;
 L1: {
  if ((l13 = l12) < 16L) { break L1; }
  Words.put64(b, ((int) l11) - 58912, 0L);
  Words.put64(b, ((int) l13) - 58880, 0L);
  Words.put64(b, ((int) l13) - 58888, 0L);
  Words.put64(b, ((int) l13) - 58896, 0L);
  l25 = 8;
  L2: {
   if (l5 + Integer.MIN_VALUE > -2147483647) { break L2; }
   l26 = b[((int) ((l5 & 0xffffffffL) + 83500L)) - 58912] & 0xff;
   l27 = 0;
   L3: {
    L4: {
     switch (l6) {
     case 0: break L3;
     case 1: break L4;
     default: break L2;
     }
    }
    l27 = 1;
   }
   L5: {
    L6: {
     if (l4 + Integer.MIN_VALUE < -2147483643) { break L6; }
     if (l4 != 5) { break L2; }
     l5 = (l5 == 1) ? 2 : 1;
     break L5;
    }
    if (((1L << (l12 = (l4 & 0xffffffffL) << 1L)) & 340L) == 0L) { break L2; }
    l5 = b[((int) (l12 + 98010L)) - 58912] & 0xff;
   }
   if (!((l2 + Integer.MIN_VALUE < -2147483646) & (l3 + Integer.MIN_VALUE < -2147483632))) { break L2; }
   l14 = l1;
   l0 = l12 = l0 + ((l0 == 0L) ? 4096L : 0L);
   L7: {
    L8: {
     L9: {
      if (l1 + Long.MIN_VALUE < -9223372036854775804L) { break L9; }
      l0 = l12;
      l14 = l1;
      L10: while (true) {
       if (((Words.get32(b, ((int) l0) - 58912) + 16776990) & 12632312) != 8421376) { break L8; }
       l0 = l0 + 3L;
       if ((l14 = l14 + -3L) + Long.MIN_VALUE > -9223372036854775805L) { continue L10; }
       break L10;
      }
     }
     if (l14 + Long.MIN_VALUE > -9223372036854775805L) { break L8; }
     L11: {
      switch ((int) l14) {
      case 1: case 2: break L8;
      case 3: break L11;
      default: break L7;
      }
     }
     if (((((Words.get16(b, ((int) l0) - 58912) & 0xffff) | ((b[((int) (l0 + 2L)) - 58912] & 0xff) << 16)) + 16776990) & 12632312) == 8421376) { break L7; }
    }
    if (Core1.f6(m, l12, l1) != 0) { break L7; }
    l25 = 5;
    break L2;
   }
   Core6.f185(m, l13 + 16L, l12, l1, l7 + ((l7 == 0L) ? 4096L : 0L), l8);
   L12: {
    if ((b[((int) l13) - 58896] & 0xff) == 1) { break L12; }
    l25 = 6;
    break L2;
   }
   l15 = Words.get64(b, ((int) l13) - 58888);
   l16 = Words.get64(b, ((int) l13) - 58880);
   l0 = 0L;
   Words.put64(b, ((int) l13) - 58856, 0L);
   Words.put64(b, ((int) l13) - 58864, l10);
   Words.put64(b, ((int) l13) - 58872, l9 + ((l9 == 0L) ? 4096L : 0L));
   b[((int) l13) - 58377] = (byte) l27;
   b[((int) l13) - 58378] = (byte) l5;
   b[((int) l13) - 58379] = (byte) l26;
   m.fill((int) (l13 + 296L), 0, (int) 232L);
   L13: {
    if (l16 == 0L) { break L13; }
    l17 = (l13 + 536L) + 16L;
    l18 = l13 + 328L;
    l19 = (l13 + 296L) + 16L;
    l20 = (l13 + 64L) + 16L;
    l8 = l16;
    l0 = l15;
    L14: while (true) {
     l21 = l12;
     l22 = l1;
     l23 = l8;
     L15: {
      L16: {
       if ((l5 = (int) b[((int) (l24 = l0)) - 58912]) <= -1) { break L16; }
       l1 = 1L;
       break L15;
      }
      L17: {
       if (l5 + Integer.MIN_VALUE >= 2147483616) { break L17; }
       l1 = 2L;
       break L15;
      }
      l1 = (l5 + Integer.MIN_VALUE < 2147483632) ? 3L : 4L;
     }
     Core6.f190(m, l13 + 296L, l15, l16, l24, l23, l2, l3);
     Words.put64(b, ((int) l13) - 58848, b[((int) l13) - 58616] & 0xffL);
     Words.put64(b, ((int) l13) - 58840, (l25 = b[((int) l13) - 58608] & 0xff) & 0xffffffffL);
     m.copy((int) l20, (int) l19, (int) 216L);
     Core7.f227(m, l13, l13 + 64L, l24 + l1, l23 - l1);
     l12 = l21;
     l1 = l22;
     L18: {
      if ((l8 = Words.get64(b, ((int) l13) - 58904)) + Long.MIN_VALUE >= l23 + Long.MIN_VALUE) { break L18; }
      l14 = l23;
      l0 = l24;
      l1 = l22;
      l12 = l21;
      L19: while (true) {
       L20: {
        L21: {
         if ((l5 = (int) b[((int) l0) - 58912]) <= -1) { break L21; }
         l7 = 1L;
         break L20;
        }
        L22: {
         if (l5 + Integer.MIN_VALUE >= 2147483616) { break L22; }
         l7 = 2L;
         break L20;
        }
        l7 = (l5 + Integer.MIN_VALUE < 2147483632) ? 3L : 4L;
       }
       L23: {
        if (!(l1 == 0L)) { break L23; }
        l1 = 0L;
        break L18;
       }
       l14 = l14 - l7;
       L24: {
        L25: {
         if ((l5 = (int) b[((int) l12) - 58912]) <= -1) { break L25; }
         l9 = 1L;
         break L24;
        }
        L26: {
         if (l5 + Integer.MIN_VALUE >= 2147483616) { break L26; }
         l9 = 2L;
         break L24;
        }
        l9 = (l5 + Integer.MIN_VALUE < 2147483632) ? 3L : 4L;
       }
       l0 = l0 + l7;
       l1 = l1 - l9;
       l12 = l12 + l9;
       if (l8 + Long.MIN_VALUE < l14 + Long.MIN_VALUE) { continue L19; }
       break L19;
      }
     }
     l0 = Words.get64(b, ((int) l13) - 58912);
     l14 = l22 - l1;
     L27: {
      L28: {
       if ((b[((int) l13) - 58616] & 0xff) != 1) { break L28; }
       l7 = Words.get64(b, ((int) l13) - 58592);
       l9 = Words.get64(b, ((int) l13) - 58600);
       L29: {
        L30: {
         L31: {
          switch (l25) {
          case 1: break L30;
          case 2: break L29;
          default: break L31;
          }
         }
         Words.put64(b, ((int) l13) - 58368, l7);
         Words.put64(b, ((int) l13) - 58376, l9);
         m.copy((int) l17, (int) l18, (int) 184L);
         Core9.f290(m, l13 + 40L, l13 + 533L, l15, l16 - l23, l24, l23, l13 + 536L);
         break L27;
        }
        Words.put16(b, ((int) l13) - 57972, (short) (Words.get16(b, ((int) l13) - 58379) & 0xffff));
        b[((int) l13) - 57970] = (byte) (b[((int) l13) - 58377] & 0xff);
        m.copy((int) (l13 + 736L), (int) l18, (int) 200L);
        L32: {
         L33: {
          if ((l5 = (int) b[((int) l24) - 58912]) <= -1) { break L33; }
          l14 = 1L;
          break L32;
         }
         L34: {
          if (l5 + Integer.MIN_VALUE >= 2147483616) { break L34; }
          l14 = 2L;
          break L32;
         }
         l14 = (l5 + Integer.MIN_VALUE < 2147483632) ? 3L : 4L;
        }
        Core9.f295(m, l13 + 40L, b[((int) l13) - 57972] & 0xff, l9, l7);
        Core9.f290(m, l13 + 40L, l13 + 940L, l15, l16 - (l7 = l23 - l14), l24 + l14, l7, l13 + 736L);
        break L27;
       }
       Core2.f53(m, l13 + 40L, l21, l14);
       break L27;
      }
      Core2.f53(m, l13 + 40L, l21, l14);
     }
     if (l8 != 0L) { continue L14; }
     break L14;
    }
    l0 = Words.get64(b, ((int) l13) - 58856);
   }
   Words.put64(b, ((int) l11) - 58912, l0);
   l25 = (l0 + Long.MIN_VALUE > l10 + Long.MIN_VALUE) ? 6 : 0;
  }
  m.g0 = l13 + 944L;
  final int t35 = l25;
  return t35;
 }
 throw State.trap();
}

static int f392(State m, long l0, long l1, int l2, int l3, int l4, int l5, long l6, long l7, long l8) {
 final byte[] b = m.bytes;
 long l9 = 0;
 long l10 = 0;
 long l11 = 0;
 long l12 = 0;
 long l13 = 0;
 long l14 = 0;
 long l15 = 0;
 int l16 = 0;
 int l17 = 0;
 int l18 = 0;
 int l19 = 0;
 int l20 = 0;
 m.g0 = l9 = m.g0 - 272L;
 L1: {
  L2: {
   L3: {
    L4: {
     L5: {
      L6: {
       L7: {
        if ((l9 = l9) < 16L) { break L7; }
        if (l2 + Integer.MIN_VALUE > -2147483639) { break L6; }
        L8: {
         L9: {
          if (l3 + Integer.MIN_VALUE > -2147483644) { break L9; }
          l16 = b[((int) (((l3 & 0xffffffffL) << 1L) + 98010L)) - 58912] & 0xff;
          l17 = (l3 == 0) ? 1 : 0;
          break L8;
         }
         if (l3 != 5) { break L5; }
         l17 = 1;
         l16 = 0;
        }
        if (l4 + Integer.MIN_VALUE >= -2147483646) { break L4; }
        if (l5 + Integer.MIN_VALUE >= -2147483646) { break L3; }
        l10 = l6 + ((l6 == 0L) ? 4096L : 0L);
        l18 = b[((int) ((l4 & 0xffffffffL) + 83500L)) - 58912] & 0xff;
        l19 = b[((int) ((l5 & 0xffffffffL) + 83500L)) - 58912] & 0xff;
        L10: {
         if (l2 + Integer.MIN_VALUE <= -2147483644) { break L10; }
         L11: {
          final long t12 = 0L - l0;
          final long t13 = l0;
          final int t14 = l20 = (l1 < 0L) ? 1 : 0;
          final int t15 = ((l6 = t14 != 0 ? t12 : t13) + Long.MIN_VALUE <= Words.get64(b, ((int) (l11 = ((l2 & 0xffffffffL) << 5L) + (l20 != 0 ? 67904L : 67888L))) - 58912) + Long.MIN_VALUE) ? 1 : 0;
          final long t16 = 0L - (l1 + ((l0 != 0L) ? 1L : 0L));
          final long t17 = l1;
          final int t18 = l20;
          final int t19 = ((l0 = t18 != 0 ? t16 : t17) + Long.MIN_VALUE <= (l11 = Words.get64(b, ((int) l11) - 58904)) + Long.MIN_VALUE) ? 1 : 0;
          final int t20 = (l0 == l11) ? 1 : 0;
          if ((t20 != 0 ? t15 : t19) != 0) { break L11; }
          Words.put64(b, ((int) l8) - 58912, 0L);
          l3 = 7;
          break L1;
         }
         l20 = (int) (l1 >>> 63L);
         L21: {
          L22: {
           L23: {
            L24: {
             if (l3 + Integer.MIN_VALUE < -2147483643) { break L24; }
             m.fill((int) (l9 + 13L), 0, (int) 235L);
             final int t25 = (l6 + Long.MIN_VALUE < -9213372036854775808L) ? 1 : 0;
             final int t26 = (l0 == 0L) ? 1 : 0;
             final int t27 = ((t26 != 0 ? t25 : 0) != 0) ? 2 : 1;
             final int t28 = (l4 == 1) ? 1 : 0;
             l16 = t28 != 0 ? t27 : 1;
             break L23;
            }
            m.fill((int) (l9 + 13L), 0, (int) 235L);
            L29: {
             if (l17 == 0) { break L29; }
             Words.put16(b, ((int) l9) - 58648, (short) 0);
             l11 = 0L;
             Words.put64(b, ((int) l9) - 58656, 0L);
             Words.put64(b, ((int) l9) - 58664, 0L);
             l5 = (l5 == 1) ? 1 : 0;
             L30: {
              if (l0 == 0L) { break L30; }
              l12 = (l6 >>> 42L) | (l0 << 22L);
              l1 = l0 >>> 4L;
              l0 = l9 + 248L;
              l11 = 0L;
              L31: while (true) {
               Words.put16(b, ((int) (l0 + 6L)) - 58912, (short) Long.divideUnsigned(l1 = (((l1 = (((l1 = ((l1 - ((l13 = Long.divideUnsigned(l1, 152587890625L)) * 152587890625L)) << 26L) | (l12 & 67108863L)) - ((l12 = Long.divideUnsigned(l1, 152587890625L)) * 152587890625L)) << 26L) | ((l6 >>> 16L) & 67108863L)) - ((l14 = Long.divideUnsigned(l1, 152587890625L)) * 152587890625L)) << 16L) | (l6 & 65535L), 1000000000000L));
               Words.put16(b, ((int) (l0 + 4L)) - 58912, (short) ((int) ((((int) (l6 = Long.divideUnsigned(l1, 100000000L))) & 0xffffffffL) % 10000L)));
               Words.put16(b, ((int) (l0 + 2L)) - 58912, (short) (l2 = (int) (((l3 = (int) (l1 - (l6 * 100000000L))) & 0xffffffffL) / 10000L)));
               Words.put16(b, ((int) l0) - 58912, (short) (l3 - (l2 * 10000)));
               l12 = ((l6 = (l1 = l13 << 52L) + (l14 + (l12 << 26L))) >>> 42L) | ((l13 = (l13 >>> 12L) + ((l6 + Long.MIN_VALUE < l1 + Long.MIN_VALUE) ? 1L : 0L)) << 22L);
               l1 = l13 >>> 4L;
               l0 = l0 + 8L;
               l11 = l11 + 4L;
               if (l13 != 0L) { continue L31; }
               break L31;
              }
             }
             l13 = l5 != 0 ? 69244L : 69460L;
             l12 = l5 != 0 ? 69676L : 69892L;
             L32: {
              if (l6 + Long.MIN_VALUE < -9223372036854765808L) { break L32; }
              l0 = (l9 + 248L) + (l11 << 1L);
              L33: while (true) {
               Words.put16(b, ((int) l0) - 58912, (short) ((l1 = l6) - ((l6 = Long.divideUnsigned(l1, 10000L)) * 10000L)));
               l0 = l0 + 2L;
               l11 = l11 + 1L;
               if (l1 + Long.MIN_VALUE > -9223372036754775809L) { continue L33; }
               break L33;
              }
             }
             l1 = l4 != 0 ? l12 : l13;
             l14 = ((l6 + Long.MIN_VALUE > -9223372036854775799L) ? 2L : 1L) + ((l6 + Long.MIN_VALUE > -9223372036854775709L) ? 1L : 0L);
             l15 = (l6 + Long.MIN_VALUE > -9223372036854774809L) ? 1L : 0L;
             l0 = 235L;
             L34: {
              if (l11 == 0L) { break L34; }
              l12 = l9 + 248L;
              L35: while (true) {
               Words.put32(b, ((int) ((l13 = (l9 + 13L) + l0) + -4L)) - 58912, Words.get32(b, ((int) (l1 + (((((l4 = (l3 = Words.get16(b, ((int) l12) - 58912) & 0xffff) - ((l2 = (int) ((l3 & 0xffffffffL) / 100L)) * 100)) - ((l4 = (int) (((l4 & 255) & 0xffffffffL) / 10L)) * 10)) << 2) & 0xffffffffL) & 252L))) - 58912));
               Words.put32(b, ((int) (l13 + -7L)) - 58912, Words.get32(b, ((int) (l1 + ((l4 << 2) & 0xffffffffL))) - 58912));
               Words.put32(b, ((int) (l13 + -10L)) - 58912, Words.get32(b, ((int) (l1 + ((((int) ((l2 & 0xffffffffL) % 10L)) << 2) & 0xffffffffL))) - 58912));
               Words.put32(b, ((int) (l13 + -13L)) - 58912, Words.get32(b, ((int) (l1 + ((((int) ((l3 & 0xffffffffL) / 1000L)) << 2) & 0xffffffffL))) - 58912));
               l12 = l12 + 2L;
               l0 = l0 + -12L;
               if ((l11 = l11 + -1L) != 0L) { continue L35; }
               break L35;
              }
             }
             l11 = l14 + l15;
             l3 = (int) l6;
             l6 = l9 + 9L;
             L36: while (true) {
              Words.put32(b, ((int) (l6 + l0)) - 58912, Words.get32(b, ((int) (l1 + ((((l3 - ((l2 = (int) (((l3 & 65535) & 0xffffffffL) / 10L)) * 10)) << 2) & 0xffffffffL) & 65532L))) - 58912));
              l0 = l0 + -3L;
              l3 = l2;
              if ((l11 = l11 + -1L) != 0L) { continue L36; }
              break L36;
             }
             if (l20 == 0) { break L22; }
             Words.put32(b, ((int) (((l9 + 13L) + l0) + -4L)) - 58912, Words.get32(b, ((int) (l1 + 104L)) - 58912));
             l0 = l0 + -3L;
             break L22;
            }
            final int t37 = (l6 + Long.MIN_VALUE < -9213372036854775808L) ? 1 : 0;
            final int t38 = (l0 == 0L) ? 1 : 0;
            if ((t38 != 0 ? t37 : 0) != 0) { break L23; }
            if ((l16 & 255) == 0) { break L21; }
           }
           Words.put32(b, ((int) l9) - 58662, 0);
           b[((int) l9) - 58663] = (byte) l19;
           b[((int) l9) - 58664] = (byte) l18;
           Words.put16(b, ((int) l9) - 58658, (short) 0);
           final int t39 = (int) l9;
           final long t40 = ((l3 = (l5 == 1) ? 1 : 0) != 0) ? 69676L : 69892L;
           final long t41 = l3 != 0 ? 69244L : 69460L;
           final int t42 = l4;
           Words.put64(b, t39 - 58656, t42 != 0 ? t40 : t41);
           l0 = Core2.f49(m, l9 + 13L, l9 + 248L, l16, l20, l6, l0);
          }
          Words.put64(b, ((int) l8) - 58912, l1 = 235L - l0);
          l3 = 6;
          if (l7 + Long.MIN_VALUE < l1 + Long.MIN_VALUE) { break L1; }
          L43: {
           if (l1 == 0L) { break L43; }
           m.copy((int) l10, (int) ((l9 + 13L) + l0), (int) l1);
          }
          l3 = 0;
          break L1;
         }
         Words.put64(b, ((int) l8) - 58912, 0L);
         l3 = (l1 > -1L) ? 3 : 4;
         break L1;
        }
        L44: {
         final int t45 = (l0 + Long.MIN_VALUE <= Words.get64(b, State.far((int) (l6 = (l2 & 0xffffffffL) << 5L), 67888)) + Long.MIN_VALUE) ? 1 : 0;
         final int t46 = (l1 + Long.MIN_VALUE <= (l6 = Words.get64(b, State.far((int) l6, 67896))) + Long.MIN_VALUE) ? 1 : 0;
         final int t47 = (l1 == l6) ? 1 : 0;
         if ((t47 != 0 ? t45 : t46) != 0) { break L44; }
         Words.put64(b, ((int) l8) - 58912, 0L);
         l3 = 7;
         break L1;
        }
        L48: {
         L49: {
          L50: {
           L51: {
            if (l3 + Integer.MIN_VALUE < -2147483643) { break L51; }
            m.fill((int) (l9 + 13L), 0, (int) 235L);
            final int t52 = (l4 == 1) ? 2 : 1;
            final int t53 = (l0 + Long.MIN_VALUE < -9213372036854775808L) ? 1 : 0;
            final int t54 = (l1 == 0L) ? 1 : 0;
            l16 = ((t54 != 0 ? t53 : 0) != 0) ? t52 : 1;
            break L50;
           }
           m.fill((int) (l9 + 13L), 0, (int) 235L);
           L55: {
            if (l17 == 0) { break L55; }
            Words.put16(b, ((int) l9) - 58648, (short) 0);
            l6 = 0L;
            Words.put64(b, ((int) l9) - 58656, 0L);
            Words.put64(b, ((int) l9) - 58664, 0L);
            l5 = (l5 == 1) ? 1 : 0;
            L56: {
             if (l1 == 0L) { break L56; }
             l12 = (l0 >>> 42L) | (l1 << 22L);
             l11 = l1 >>> 4L;
             l1 = l9 + 248L;
             l6 = 0L;
             L57: while (true) {
              Words.put16(b, ((int) (l1 + 6L)) - 58912, (short) Long.divideUnsigned(l0 = (((l12 = (((l11 = ((l11 - ((l13 = Long.divideUnsigned(l11, 152587890625L)) * 152587890625L)) << 26L) | (l12 & 67108863L)) - ((l11 = Long.divideUnsigned(l11, 152587890625L)) * 152587890625L)) << 26L) | ((l0 >>> 16L) & 67108863L)) - ((l12 = Long.divideUnsigned(l12, 152587890625L)) * 152587890625L)) << 16L) | (l0 & 65535L), 1000000000000L));
              Words.put16(b, ((int) (l1 + 4L)) - 58912, (short) ((int) ((((int) (l14 = Long.divideUnsigned(l0, 100000000L))) & 0xffffffffL) % 10000L)));
              Words.put16(b, ((int) (l1 + 2L)) - 58912, (short) (l2 = (int) (((l3 = (int) (l0 - (l14 * 100000000L))) & 0xffffffffL) / 10000L)));
              Words.put16(b, ((int) l1) - 58912, (short) (l3 - (l2 * 10000)));
              l12 = ((l0 = (l14 = l13 << 52L) + (l12 + (l11 << 26L))) >>> 42L) | ((l13 = (l13 >>> 12L) + ((l0 + Long.MIN_VALUE < l14 + Long.MIN_VALUE) ? 1L : 0L)) << 22L);
              l11 = l13 >>> 4L;
              l1 = l1 + 8L;
              l6 = l6 + 4L;
              if (l13 != 0L) { continue L57; }
              break L57;
             }
            }
            l13 = l5 != 0 ? 69244L : 69460L;
            l12 = l5 != 0 ? 69676L : 69892L;
            L58: {
             if (l0 + Long.MIN_VALUE < -9223372036854765808L) { break L58; }
             l1 = (l9 + 248L) + (l6 << 1L);
             L59: while (true) {
              Words.put16(b, ((int) l1) - 58912, (short) ((l11 = l0) - ((l0 = Long.divideUnsigned(l11, 10000L)) * 10000L)));
              l1 = l1 + 2L;
              l6 = l6 + 1L;
              if (l11 + Long.MIN_VALUE > -9223372036754775809L) { continue L59; }
              break L59;
             }
            }
            l11 = l4 != 0 ? l12 : l13;
            l14 = ((l0 + Long.MIN_VALUE > -9223372036854775799L) ? 2L : 1L) + ((l0 + Long.MIN_VALUE > -9223372036854775709L) ? 1L : 0L);
            l15 = (l0 + Long.MIN_VALUE > -9223372036854774809L) ? 1L : 0L;
            l1 = 235L;
            L60: {
             if (l6 == 0L) { break L60; }
             l12 = l9 + 248L;
             L61: while (true) {
              Words.put32(b, ((int) ((l13 = (l9 + 13L) + l1) + -4L)) - 58912, Words.get32(b, ((int) (l11 + (((((l4 = (l3 = Words.get16(b, ((int) l12) - 58912) & 0xffff) - ((l2 = (int) ((l3 & 0xffffffffL) / 100L)) * 100)) - ((l4 = (int) (((l4 & 255) & 0xffffffffL) / 10L)) * 10)) << 2) & 0xffffffffL) & 252L))) - 58912));
              Words.put32(b, ((int) (l13 + -7L)) - 58912, Words.get32(b, ((int) (l11 + ((l4 << 2) & 0xffffffffL))) - 58912));
              Words.put32(b, ((int) (l13 + -10L)) - 58912, Words.get32(b, ((int) (l11 + ((((int) ((l2 & 0xffffffffL) % 10L)) << 2) & 0xffffffffL))) - 58912));
              Words.put32(b, ((int) (l13 + -13L)) - 58912, Words.get32(b, ((int) (l11 + ((((int) ((l3 & 0xffffffffL) / 1000L)) << 2) & 0xffffffffL))) - 58912));
              l12 = l12 + 2L;
              l1 = l1 + -12L;
              if ((l6 = l6 + -1L) != 0L) { continue L61; }
              break L61;
             }
            }
            l6 = l14 + l15;
            l3 = (int) l0;
            l0 = l9 + 9L;
            L62: while (true) {
             Words.put32(b, ((int) (l0 + l1)) - 58912, Words.get32(b, ((int) (l11 + ((((l3 - ((l2 = (int) (((l3 & 65535) & 0xffffffffL) / 10L)) * 10)) << 2) & 0xffffffffL) & 65532L))) - 58912));
             l1 = l1 + -3L;
             l3 = l2;
             if ((l6 = l6 + -1L) != 0L) { continue L62; }
             break L49;
            }
           }
           final int t63 = (l0 + Long.MIN_VALUE < -9213372036854775808L) ? 1 : 0;
           final int t64 = (l1 == 0L) ? 1 : 0;
           if ((t64 != 0 ? t63 : 0) != 0) { break L50; }
           if ((l16 & 255) == 0) { break L48; }
          }
          Words.put32(b, ((int) l9) - 58662, 0);
          b[((int) l9) - 58663] = (byte) l19;
          b[((int) l9) - 58664] = (byte) l18;
          Words.put16(b, ((int) l9) - 58658, (short) 0);
          final int t65 = (int) l9;
          final long t66 = ((l3 = (l5 == 1) ? 1 : 0) != 0) ? 69676L : 69892L;
          final long t67 = l3 != 0 ? 69244L : 69460L;
          final int t68 = l4;
          Words.put64(b, t65 - 58656, t68 != 0 ? t66 : t67);
          l1 = Core2.f49(m, l9 + 13L, l9 + 248L, l16, 0, l0, l1);
         }
         Words.put64(b, ((int) l8) - 58912, l0 = 235L - l1);
         l3 = 6;
         if (l7 + Long.MIN_VALUE < l0 + Long.MIN_VALUE) { break L1; }
         L69: {
          if (l0 == 0L) { break L69; }
          m.copy((int) l10, (int) ((l9 + 13L) + l1), (int) l0);
         }
         l3 = 0;
         break L1;
        }
        Words.put64(b, ((int) l8) - 58912, 0L);
        l3 = 3;
        break L1;
       }
       throw State.trap();
      }
      Words.put64(b, ((int) l8) - 58912, 0L);
      break L2;
     }
     Words.put64(b, ((int) l8) - 58912, 0L);
     break L2;
    }
    Words.put64(b, ((int) l8) - 58912, 0L);
    break L2;
   }
   Words.put64(b, ((int) l8) - 58912, 0L);
  }
  l3 = 8;
 }
 m.g0 = l9 + 272L;
 return l3;
}
}
