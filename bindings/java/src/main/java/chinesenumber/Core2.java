// The proved module for WebAssembly as Java; made by bindings/java/core.py.
package chinesenumber;

final class Core2 {
static int f38_1(State m, int l1, long l3, long l4, long l5, long l6, long l7, long l8, long l9, long l10, long l11, long l12, long l13, long l14, long l15, long l16, long l17, int l18, int l19, int l20, int l21, int l22) {
 final byte[] b = m.bytes;
 int exit = 0;
 PART: {
  L2: {
   L3: {
    L4: {
     L5: {
      if ((l6 = l5) < 16L) { break L5; }
      Words.put64(b, ((int) l6) - 58680, 0L);
      Words.put64(b, ((int) l6) - 58688, 0L);
      Words.put64(b, ((int) l6) - 58696, 0L);
      Words.put64(b, ((int) l6) - 58704, 0L);
      Words.put64(b, ((int) l6) - 58712, 0L);
      if (l4 + Long.MIN_VALUE < -9223372036854775805L) { break L2; }
      l7 = l4 + -3L;
      if ((l1 & 255) == 0) { break L4; }
      l8 = (((l1 & 0xffffffffL) & 255L) << 5L) + 68960L;
      l9 = l6 + 198L;
      l10 = 0L;
      l11 = 0L;
      l12 = l4;
      l13 = 0L;
      l14 = 0L;
      L6: while (true) {
       L7: {
        if (l12 + Long.MIN_VALUE >= -9223372036854775804L) { break L7; }
        l18 = 0;
        l19 = 0;
        break L3;
       }
       if (Words.get32(b, State.far((int) (l15 = ((((l18 = Words.get32(b, ((int) ((l3 + l12) + -4L)) - 58912) >>> 8) & 0xffffffffL) * 953497L) >>> 22L) & 1016L), 66852)) != l18) { break L2; }
       l18 = b[((int) (l15 + 66857L)) - 58912] & 0xff;
       l5 = l12 + -3L;
       l20 = 0;
       L8: {
        L9: {
         L10: {
          L11: {
           switch ((int) (b[((int) (l15 + 66856L)) - 58912] & 0xffL)) {
           case 1: break L11;
           case 2: break L2;
           default: break L10;
           }
          }
          L12: {
           if ((l20 = l18 & 255) + Integer.MIN_VALUE <= -2147483645) { break L12; }
           l20 = 0;
           l21 = 1;
           l15 = 0L;
           break L8;
          }
          if (l20 == 0) { break L2; }
          L13: {
           if (l5 + Long.MIN_VALUE >= -9223372036854775804L) { break L13; }
           l19 = 0;
           l10 = 0L;
           l12 = l5;
           break L3;
          }
          if (Words.get32(b, ((int) ((l16 = ((((l20 = Words.get32(b, ((int) ((l3 + l5) + -4L)) - 58912) >>> 8) & 0xffffffffL) * 953497L) >>> 22L) & 1016L) + 66852L)) - 58912) != l20) { break L2; }
          l5 = l12 + -6L;
          l15 = 0L;
          l20 = l18;
          l18 = l19 = b[((int) (l16 + 66857L)) - 58912] & 0xff;
          switch ((int) (b[((int) (l16 + 66856L)) - 58912] & 0xffL)) {
          case 1: break L9;
          case 2: break L2;
          default: break L10;
          }
         }
         l15 = Words.get64(b, State.far((int) (((l20 & 0xffffffffL) & 255L) << 3L), 68208)) * ((l18 & 0xffffffffL) & 255L);
         L14: while (true) {
          L15: {
           if ((l19 = (l5 + Long.MIN_VALUE < -9223372036854775804L) ? 1 : 0) == 0) { break L15; }
           l10 = l15;
           l18 = l20;
           l12 = l5;
           break L3;
          }
          if (Words.get32(b, State.far((int) (l16 = ((((l18 = Words.get32(b, ((int) ((l3 + l5) + -4L)) - 58912) >>> 8) & 0xffffffffL) * 953497L) >>> 22L) & 1016L), 66852)) != l18) { break L2; }
          l18 = b[((int) (l16 + 66857L)) - 58912] & 0xff;
          l12 = l5 + -3L;
          L16: {
           L17: {
            L18: {
             L19: {
              switch ((int) (b[((int) (l16 + 66856L)) - 58912] & 0xffL)) {
              case 1: break L19;
              case 2: break L2;
              default: break L18;
              }
             }
             L20: {
              if (l5 != l7) { break L20; }
              if ((l18 & 255) + Integer.MIN_VALUE > -2147483647) { break L2; }
             }
             if ((l22 = l18 & 255) + Integer.MIN_VALUE > -2147483645) { break L16; }
             if ((l20 & 255) + Integer.MIN_VALUE >= l22 + Integer.MIN_VALUE) { break L2; }
             L21: {
              if (l12 + Long.MIN_VALUE >= -9223372036854775804L) { break L21; }
              l10 = l15;
              break L3;
             }
             if (Words.get32(b, ((int) ((l12 = ((((l20 = Words.get32(b, ((int) ((l3 + l12) + -4L)) - 58912) >>> 8) & 0xffffffffL) * 953497L) >>> 22L) & 1016L) + 66852L)) - 58912) != l20) { break L2; }
             l5 = l5 + -6L;
             l19 = b[((int) (l12 + 66857L)) - 58912] & 0xff;
             L22: {
              if ((l20 = b[((int) (l12 + 66856L)) - 58912] & 0xff) != 0) { break L22; }
              l20 = l18;
              l18 = l19;
              break L17;
             }
             switch (l20 + -1) {
             case 1: break L2;
             default: break L9;
             }
            }
            l5 = l12;
            if ((l18 & 255) != 0) { break L2; }
           }
           l18 = (l15 + Long.MIN_VALUE > ((l12 = Words.get64(b, State.far((int) (((l20 & 0xffffffffL) & 255L) << 3L), 68208)) * ((l18 & 0xffffffffL) & 255L)) ^ -1L) + Long.MIN_VALUE) ? 1 : 0;
           l15 = l12 + l15;
           if (l18 == 0) { continue L14; }
           break L2;
          }
          break L14;
         }
         l21 = ((l20 & 255) == 0) ? 1 : 0;
         l20 = 1;
         l5 = l12;
         break L8;
        }
        if ((l19 & 255) + Integer.MIN_VALUE <= -2147483645) { break L2; }
        l21 = 0;
        l18 = l19;
        l20 = 0;
       }
       L23: {
        L24: {
         L25: {
          L26: {
           L27: {
            L28: {
             L29: {
              L30: {
               L31: {
                L32: {
                 L33: {
                  if ((l22 = (l11 == 0L) ? 1 : 0) == 0) { break L33; }
                  l16 = 1L;
                  l17 = 0L;
                  break L32;
                 }
                 if ((l19 = b[((int) (((l6 + 200L) + (l12 = l11 << 1L)) + -1L)) - 58912] & 0xff) + Integer.MIN_VALUE > -2147483610) { break L2; }
                 l17 = Words.get64(b, ((int) ((l16 = (l19 & 0xffffffffL) << 4L) + 68344L)) - 58912);
                 l16 = Words.get64(b, ((int) (l16 + 68336L)) - 58912);
                 if (l19 + Integer.MIN_VALUE > -2147483629) { break L31; }
                }
                Core1.f3(m, l6 + 48L, l16, l17, l15, 0L);
                final int t34 = (l13 + Long.MIN_VALUE > ((l12 = Words.get64(b, ((int) l6) - 58864)) ^ -1L) + Long.MIN_VALUE) ? 1 : 0;
                final int t35 = (l14 + Long.MIN_VALUE > (l15 = (l16 = Words.get64(b, ((int) l6) - 58856)) ^ -1L) + Long.MIN_VALUE) ? 1 : 0;
                final int t36 = (l14 == l15) ? 1 : 0;
                if ((t36 != 0 ? t34 : t35) != 0) { break L2; }
                l14 = (l16 + l14) + (((l13 = l12 + l13) + Long.MIN_VALUE < l12 + Long.MIN_VALUE) ? 1L : 0L);
                if (l20 == 0) { break L28; }
                if (l22 == 0) { break L30; }
                break L24;
               }
               Core1.f3(m, l6 + 64L, l16, 0L, l15, 0L);
               Core1.f3(m, l6 + 80L, l17, 0L, l15, 0L);
               if ((Words.get64(b, ((int) l6) - 58824) + (((l15 = (l16 = Words.get64(b, ((int) l6) - 58840)) + Words.get64(b, ((int) l6) - 58832)) + Long.MIN_VALUE < l16 + Long.MIN_VALUE) ? 1L : 0L)) != 0L) { break L2; }
               final int t37 = (l13 + Long.MIN_VALUE > ((l16 = Words.get64(b, ((int) l6) - 58848)) ^ -1L) + Long.MIN_VALUE) ? 1 : 0;
               final int t38 = (l14 + Long.MIN_VALUE > (l17 = l15 ^ -1L) + Long.MIN_VALUE) ? 1 : 0;
               final int t39 = (l14 == l17) ? 1 : 0;
               if ((t39 != 0 ? t37 : t38) != 0) { break L2; }
               l14 = (l15 + l14) + (((l13 = l16 + l13) + Long.MIN_VALUE < l16 + Long.MIN_VALUE) ? 1L : 0L);
               if (l20 == 0) { break L29; }
              }
              l12 = l11 << 1L;
              l15 = l11 + -1L;
              L40: while (true) {
               if ((l20 = b[((int) (l9 + l12)) - 58912] & 0xff) + Integer.MIN_VALUE >= (l19 = l18 & 255) + Integer.MIN_VALUE) { break L26; }
               l12 = l12 + -2L;
               Words.put64(b, ((int) l6) - 58680, l15);
               if ((l15 = l15 + -1L) == -1L) { break L24; }
               continue L40;
              }
             }
             if (l21 != 0) { break L27; }
             break L2;
            }
            if (l21 == 0) { break L2; }
            if (l22 != 0) { break L24; }
            l12 = l11 << 1L;
           }
           if ((l18 & 255) + Integer.MIN_VALUE >= (b[((int) (((l6 + 200L) + l12) + -2L)) - 58912] & 0xff) + Integer.MIN_VALUE) { break L2; }
           break L25;
          }
          if (l19 + Integer.MIN_VALUE >= l20 + Integer.MIN_VALUE) { break L2; }
         }
         l15 = b[((int) (((l6 + 200L) + l12) + -1L)) - 58912] & 0xffL;
         break L23;
        }
        l12 = 0L;
        l15 = 0L;
       }
       if ((l15 = l15 + (Words.get16(b, ((int) (l8 + (((l18 & 0xffffffffL) & 255L) << 1L))) - 58912) & 0xffffL)) + Long.MIN_VALUE > -9223372036854775770L) { break L2; }
       b[((int) (l12 = (l6 + 200L) + l12)) - 58911] = (byte) l15;
       b[((int) l12) - 58912] = (byte) l18;
       Words.put64(b, ((int) l6) - 58680, l11 = Words.get64(b, ((int) l6) - 58680) + 1L);
       l12 = l5;
       continue L6;
      }
     }
     throw State.trap();
    }
    L41: {
     if (l4 != 3L) { break L41; }
     l11 = 0L;
     l18 = 0;
     l13 = 0L;
     l14 = 0L;
     l10 = 0L;
     l19 = 0;
     l12 = l4;
     break L3;
    }
    if (Words.get32(b, State.far((int) (l5 = ((((l18 = Words.get32(b, ((int) ((l3 + l4) + -4L)) - 58912) >>> 8) & 0xffffffffL) * 953497L) >>> 22L) & 1016L), 66852)) != l18) { break L2; }
    l18 = b[((int) (l5 + 66857L)) - 58912] & 0xff;
    l12 = l4 + -3L;
    l20 = 0;
    L42: {
     L43: {
      switch ((int) (b[((int) (l5 + 66856L)) - 58912] & 0xffL)) {
      case 1: break L43;
      case 2: break L2;
      default: break L42;
      }
     }
     if ((l18 & 255) == 0) { break L2; }
     L44: {
      if (l12 + Long.MIN_VALUE >= -9223372036854775804L) { break L44; }
      l11 = 0L;
      l19 = 0;
      l13 = 0L;
      l14 = 0L;
      l10 = 0L;
      break L3;
     }
     if (Words.get32(b, ((int) ((l5 = ((((l20 = Words.get32(b, ((int) ((l3 + l12) + -4L)) - 58912) >>> 8) & 0xffffffffL) * 953497L) >>> 22L) & 1016L) + 66852L)) - 58912) != l20) { break L2; }
     if ((b[((int) (l5 + 66856L)) - 58912] & 0xff) != 0) { break L2; }
     l12 = l4 + -6L;
     l20 = l18;
     l18 = b[((int) (l5 + 66857L)) - 58912] & 0xff;
    }
    l10 = Words.get64(b, State.far((int) (((l20 & 0xffffffffL) & 255L) << 3L), 68208)) * ((l18 & 0xffffffffL) & 255L);
    L45: while (true) {
     L46: {
      if ((l19 = (l12 + Long.MIN_VALUE < -9223372036854775804L) ? 1 : 0) == 0) { break L46; }
      l11 = 0L;
      l13 = 0L;
      l14 = 0L;
      l18 = l20;
      break L3;
     }
     if (Words.get32(b, State.far((int) (l5 = ((((l18 = Words.get32(b, ((int) ((l3 + l12) + -4L)) - 58912) >>> 8) & 0xffffffffL) * 953497L) >>> 22L) & 1016L), 66852)) != l18) { break L2; }
     l18 = b[((int) (l5 + 66857L)) - 58912] & 0xff;
     l15 = l12 + -3L;
     L47: {
      L48: {
       L49: {
        switch ((int) (b[((int) (l5 + 66856L)) - 58912] & 0xffL)) {
        case 1: break L49;
        case 2: break L2;
        default: break L48;
        }
       }
       if ((l12 == l7) & ((l22 = l18 & 255) + Integer.MIN_VALUE > -2147483647)) { break L2; }
       if ((l20 & 255) + Integer.MIN_VALUE >= l22 + Integer.MIN_VALUE) { break L2; }
       L50: {
        if (l15 + Long.MIN_VALUE >= -9223372036854775804L) { break L50; }
        l14 = 0L;
        l11 = 0L;
        l13 = 0L;
        l12 = l15;
        break L3;
       }
       if (Words.get32(b, ((int) ((l5 = ((((l20 = Words.get32(b, ((int) ((l3 + l15) + -4L)) - 58912) >>> 8) & 0xffffffffL) * 953497L) >>> 22L) & 1016L) + 66852L)) - 58912) != l20) { break L2; }
       if ((b[((int) (l5 + 66856L)) - 58912] & 0xff) != 0) { break L2; }
       l12 = l12 + -6L;
       l20 = l18;
       l18 = b[((int) (l5 + 66857L)) - 58912] & 0xff;
       break L47;
      }
      l12 = l15;
      if ((l18 & 255) != 0) { break L2; }
     }
     l18 = (l10 + Long.MIN_VALUE > ((l5 = Words.get64(b, State.far((int) (((l20 & 0xffffffffL) & 255L) << 3L), 68208)) * ((l18 & 0xffffffffL) & 255L)) ^ -1L) + Long.MIN_VALUE) ? 1 : 0;
     l10 = l5 + l10;
     if (l18 == 0) { continue L45; }
     break L2;
    }
   }
   if (l12 != 3L) { break L2; }
   if (Words.get32(b, State.far((int) (l5 = ((((l20 = (Words.get16(b, ((int) l3) - 58912) & 0xffff) | ((b[((int) l3) - 58910] & 0xff) << 16)) & 0xffffffffL) * 953497L) >>> 22L) & 1016L), 66852)) != l20) { break L2; }
   l20 = b[((int) (l5 + 66857L)) - 58912] & 0xff;
   L51: {
    L52: {
     L53: {
      switch ((int) (b[((int) (l5 + 66856L)) - 58912] & 0xffL)) {
      case 1: break L52;
      case 2: break L2;
      default: break L53;
      }
     }
     if ((l19 & (((l20 & 255) != 0) ? 1 : 0)) != 0) { break L2; }
     final long t54 = (l20 & 0xffffffffL) & 255L;
     final int t55 = l19;
     l5 = t55 != 0 ? 0L : t54;
     break L51;
    }
    l5 = 10L;
    if ((l20 & 255) != 1) { break L2; }
   }
   if (l10 + Long.MIN_VALUE > ((l5 = Words.get64(b, State.far((int) (((l18 & 0xffffffffL) & 255L) << 3L), 68208)) * l5) ^ -1L) + Long.MIN_VALUE) { break L2; }
   l5 = l5 + l10;
   l12 = 0L;
   L56: {
    L57: {
     L58: {
      if (!(l11 == 0L)) { break L58; }
      l15 = 1L;
      l16 = 0L;
      break L57;
     }
     if ((l18 = b[((int) (((l6 + 200L) + (l11 << 1L)) + -1L)) - 58912] & 0xff) + Integer.MIN_VALUE > -2147483610) { break L2; }
     l16 = Words.get64(b, ((int) ((l15 = (l18 & 0xffffffffL) << 4L) + 68344L)) - 58912);
     l15 = Words.get64(b, ((int) (l15 + 68336L)) - 58912);
     if (l18 + Integer.MIN_VALUE > -2147483629) { break L56; }
    }
    Core1.f3(m, l6, l15, l16, l5, 0L);
    final int t59 = (l13 + Long.MIN_VALUE > ((l15 = Words.get64(b, ((int) l6) - 58912)) ^ -1L) + Long.MIN_VALUE) ? 1 : 0;
    final int t60 = (l14 + Long.MIN_VALUE > (l5 = (l16 = Words.get64(b, ((int) l6) - 58904)) ^ -1L) + Long.MIN_VALUE) ? 1 : 0;
    final int t61 = (l14 == l5) ? 1 : 0;
    if ((t61 != 0 ? t59 : t60) != 0) { break L2; }
    l3 = (l16 + l14) + (((l5 = l15 + l13) + Long.MIN_VALUE < l15 + Long.MIN_VALUE) ? 1L : 0L);
    l4 = 0L;
    exit = 1; break PART;
   }
   l12 = 0L;
   Core1.f3(m, l6 + 16L, l15, 0L, l5, 0L);
   Core1.f3(m, l6 + 32L, l16, 0L, l5, 0L);
   if (!((Words.get64(b, ((int) l6) - 58872) + (((l15 = (l5 = Words.get64(b, ((int) l6) - 58888)) + Words.get64(b, ((int) l6) - 58880)) + Long.MIN_VALUE < l5 + Long.MIN_VALUE) ? 1L : 0L)) == 0L)) { break L2; }
   final int t62 = (l13 + Long.MIN_VALUE <= ((l16 = Words.get64(b, ((int) l6) - 58896)) ^ -1L) + Long.MIN_VALUE) ? 1 : 0;
   final int t63 = (l14 + Long.MIN_VALUE <= (l5 = l15 ^ -1L) + Long.MIN_VALUE) ? 1 : 0;
   final int t64 = (l14 == l5) ? 1 : 0;
   if ((t64 != 0 ? t62 : t63) == 0) { break L2; }
   l3 = (l15 + l14) + (((l5 = l16 + l13) + Long.MIN_VALUE < l16 + Long.MIN_VALUE) ? 1L : 0L);
   l4 = 0L;
   exit = 1; break PART;
  }
 }
 m.kept[0] = l3;
 m.kept[1] = l4;
 m.kept[2] = l5;
 m.kept[3] = l6;
 m.kept[4] = l7;
 m.kept[5] = l8;
 m.kept[6] = l9;
 m.kept[7] = l10;
 m.kept[8] = l11;
 m.kept[9] = l12;
 m.kept[10] = l13;
 m.kept[11] = l14;
 m.kept[12] = l15;
 m.kept[13] = l16;
 m.kept[14] = l17;
 m.kept[15] = l18;
 m.kept[16] = l19;
 m.kept[17] = l20;
 m.kept[18] = l21;
 m.kept[19] = l22;
 return exit;
}

static void f38(State m, long l0, int l1, long l2, long l3, long l4) {
 final byte[] b = m.bytes;
 long l5 = 0;
 long l6 = 0;
 long l7 = 0;
 long l8 = 0;
 long l9 = 0;
 long l10 = 0;
 long l11 = 0;
 long l12 = 0;
 long l13 = 0;
 long l14 = 0;
 long l15 = 0;
 long l16 = 0;
 long l17 = 0;
 int l18 = 0;
 int l19 = 0;
 int l20 = 0;
 int l21 = 0;
 int l22 = 0;
 int l23 = 0;
 m.g0 = l5 = m.g0 - 240L;
 L1: {
  final int x65 = f38_1(m, l1, l3, l4, l5, l6, l7, l8, l9, l10, l11, l12, l13, l14, l15, l16, l17, l18, l19, l20, l21, l22);
  l3 = m.kept[0];
  l4 = m.kept[1];
  l5 = m.kept[2];
  l6 = m.kept[3];
  l7 = m.kept[4];
  l8 = m.kept[5];
  l9 = m.kept[6];
  l10 = m.kept[7];
  l11 = m.kept[8];
  l12 = m.kept[9];
  l13 = m.kept[10];
  l14 = m.kept[11];
  l15 = m.kept[12];
  l16 = m.kept[13];
  l17 = m.kept[14];
  l18 = (int) m.kept[15];
  l19 = (int) m.kept[16];
  l20 = (int) m.kept[17];
  l21 = (int) m.kept[18];
  l22 = (int) m.kept[19];
  switch (x65) {
  case 1: break L1;
  }
  l5 = 0L;
  Words.put64(b, ((int) l6) - 58752, 0L);
  Words.put64(b, ((int) l6) - 58744, 0L);
  Words.put64(b, ((int) l6) - 58736, 0L);
  Words.put64(b, ((int) l6) - 58728, 0L);
  Words.put64(b, ((int) l6) - 58784, 0L);
  Words.put64(b, ((int) l6) - 58776, 0L);
  Words.put64(b, ((int) l6) - 58768, 0L);
  Words.put64(b, ((int) l6) - 58760, 0L);
  Words.put64(b, ((int) l6) - 58816, 0L);
  Words.put64(b, ((int) l6) - 58808, 0L);
  Words.put64(b, ((int) l6) - 58800, 0L);
  Words.put64(b, ((int) l6) - 58792, 0L);
  L66: {
   L67: {
    if (l4 == 0L) { break L67; }
    L68: {
     L69: {
      L70: {
       L71: {
        L72: {
         L73: while (true) {
          L74: {
           L75: {
            if ((l18 = b[((int) l3) - 58912] & 0xff) + Integer.MIN_VALUE > -2147483616) { break L75; }
            if (((1L << (l18 & 0xffffffffL)) & 4294983168L) == 0L) { break L75; }
            l5 = 1L;
            break L74;
           }
           L76: {
            L77: {
             L78: {
              if (l18 == 194) { break L78; }
              if (l4 + Long.MIN_VALUE < -9223372036854775805L) { break L77; }
              if (((l18 + 28) & 255) + Integer.MIN_VALUE < -2147483395) { break L77; }
              l20 = b[((int) (l3 + 1L)) - 58912] & 0xff;
              l19 = (int) (byte) (l22 = b[((int) (l3 + 2L)) - 58912] & 0xff);
              if (l18 != 226) { break L76; }
              if ((l20 & 255) != 128) { break L76; }
              l5 = 3L;
              if (l19 < -117) { break L74; }
              if ((l22 + -168) + Integer.MIN_VALUE < -2147483646) { break L74; }
              if (l22 != 175) { break L72; }
              break L74;
             }
             l5 = 1L;
             l18 = b[((int) l3) - 58911] & 0xff;
             L79: {
              if (l4 != 1L) { break L79; }
              l19 = l18 & 63;
              l18 = 194;
              break L70;
             }
             l5 = 2L;
             if (l18 == 133) { break L74; }
             if (l18 == 160) { break L74; }
            }
            if (l4 + Long.MIN_VALUE >= -9223372036854775805L) { break L72; }
            l20 = b[((int) l3) - 58912] & 0xff;
            break L71;
           }
           L80: {
            L81: {
             L82: {
              L83: {
               switch (l18 + -225) {
               case 1: break L82;
               case 2: break L81;
               default: break L83;
               }
              }
              if ((l20 & 255) != 154) { break L72; }
              if (l19 != -128) { break L72; }
              break L80;
             }
             if ((l20 & 255) != 129) { break L72; }
             if (l19 == -97) { break L80; }
             break L72;
            }
            if ((l20 & 255) != 128) { break L72; }
            if (l19 != -128) { break L72; }
           }
           l5 = 3L;
          }
          l2 = l2 + 1L;
          l3 = l3 + l5;
          if (!((l4 = l4 - l5) == 0L)) { continue L73; }
          break L73;
         }
         l5 = 0L;
         break L67;
        }
        if (((l20 = b[((int) l3) - 58912] & 0xff) & 240) != 224) { break L71; }
        l18 = (((b[((int) l3) - 58910] & 0xff) + ((b[((int) l3) - 58911] & 0xff) << 6)) + (l20 << 12)) + -925824;
        l5 = l4 + -3L;
        l3 = l3 + 3L;
        break L68;
       }
       l18 = l20 & 255;
       l12 = 1L;
       L84: {
        if (((int) (byte) l20) > -1) { break L84; }
        l19 = (b[((int) l3) - 58911] & 0xff) & 63;
        L85: {
         if ((l20 & 255) + Integer.MIN_VALUE > -2147483425) { break L85; }
         l5 = l4;
         break L70;
        }
        l22 = (b[((int) l3) - 58910] & 0xff) & 63;
        L86: {
         if ((l20 & 255) + Integer.MIN_VALUE > -2147483409) { break L86; }
         l18 = ((l19 << 6) | ((l18 << 12) & 61440)) | l22;
         l12 = 3L;
         break L84;
        }
        l18 = ((l22 << 6) | ((l19 << 12) | ((l18 << 18) & 1835008))) | ((b[((int) l3) - 58909] & 0xff) & 63);
        l12 = 4L;
       }
       l5 = l4;
       break L69;
      }
      l18 = ((l18 << 6) & 1984) | l19;
      l12 = 2L;
     }
     l5 = l5 - l12;
     l3 = l3 + l12;
    }
    Words.put64(b, ((int) l6) - 58688, 0L);
    Words.put64(b, ((int) l6) - 58696, 0L);
    Words.put64(b, ((int) l6) - 58704, 0L);
    Words.put64(b, ((int) l6) - 58712, 0L);
    L87: {
     L88: {
      L89: {
       L90: {
        L91: {
         L92: {
          if (l5 + Long.MIN_VALUE < -9223372036854775804L) { break L92; }
          if (Words.get32(b, ((int) ((l15 = ((((l20 = Words.get32(b, ((int) ((l3 + l5) + -4L)) - 58912) >>> 8) & 0xffffffffL) * 953497L) >>> 22L) & 1016L) + 66852L)) - 58912) != l20) { break L90; }
          l4 = l5 + -3L;
          l12 = l3;
          break L91;
         }
         if (l5 != 3L) { break L90; }
         if (Words.get32(b, ((int) ((l15 = ((((l20 = (Words.get16(b, ((int) l3) - 58912) & 0xffff) | ((b[((int) l3) - 58910] & 0xff) << 16)) & 0xffffffffL) * 953497L) >>> 22L) & 1016L) + 66852L)) - 58912) != l20) { break L90; }
         l12 = l3 + 3L;
         l4 = 0L;
        }
        l22 = b[((int) (l15 + 66856L)) - 58912] & 0xff;
        l21 = b[((int) (l15 + 66857L)) - 58912] & 0xff;
        break L89;
       }
       f41(m, l6 + 200L, l3, l5);
       if ((b[((int) l6) - 58712] & 0xff) != 1) { break L88; }
       l4 = Words.get64(b, ((int) l6) - 58688);
       l12 = Words.get64(b, ((int) l6) - 58696);
       l21 = b[((int) l6) - 58703] & 0xff;
       l22 = b[((int) l6) - 58704] & 0xff;
      }
      Words.put64(b, ((int) l6) - 58688, 0L);
      Words.put64(b, ((int) l6) - 58696, 0L);
      Words.put64(b, ((int) l6) - 58704, 0L);
      Words.put64(b, ((int) l6) - 58712, 0L);
      L93: {
       L94: {
        L95: {
         if (l4 + Long.MIN_VALUE < -9223372036854775804L) { break L95; }
         if (Words.get32(b, ((int) ((l15 = ((((l20 = Words.get32(b, ((int) ((l12 + l4) + -4L)) - 58912) >>> 8) & 0xffffffffL) * 953497L) >>> 22L) & 1016L) + 66852L)) - 58912) != l20) { break L94; }
         l19 = b[((int) (l15 + 66856L)) - 58912] & 0xff;
         l23 = b[((int) (l15 + 66857L)) - 58912] & 0xff;
         l20 = 1;
         break L93;
        }
        if (l4 != 3L) { break L94; }
        if (Words.get32(b, ((int) ((l15 = ((((l20 = (Words.get16(b, ((int) l12) - 58912) & 0xffff) | ((b[((int) l12) - 58910] & 0xff) << 16)) & 0xffffffffL) * 953497L) >>> 22L) & 1016L) + 66852L)) - 58912) != l20) { break L94; }
        l19 = b[((int) (l15 + 66856L)) - 58912] & 0xff;
        l23 = b[((int) (l15 + 66857L)) - 58912] & 0xff;
        l20 = 1;
        break L93;
       }
       f41(m, l6 + 200L, l12, l4);
       l20 = ((b[((int) l6) - 58712] & 0xff) == 1) ? 1 : 0;
       l23 = b[((int) l6) - 58703] & 0xff;
       l19 = b[((int) l6) - 58704] & 0xff;
      }
      if (l20 == 0) { break L88; }
      if ((l19 & 255) != 1) { break L88; }
      if (((((l22 & 255) != 1) | ((l21 & 255) == 0)) ? 1 : 0) != 1) { break L88; }
      if ((l23 & 255) + Integer.MIN_VALUE <= -2147483647) { break L88; }
      f42(m, l6 + 128L, l1, l2, l18, l12, l4);
      l5 = Words.get64(b, ((int) l6) - 58768);
      if ((b[((int) l6) - 58784] & 0xff) != 0) { break L87; }
      L96: {
       if ((l22 & 255) != 0) { break L96; }
       f43(m, l6 + 96L, l1, l5, Words.get64(b, ((int) l6) - 58760), l23, l21);
       final long t97 = Words.get64(b, ((int) l6) - 58792);
       final int t98 = l18 = ((b[((int) l6) - 58816] & 0xff) != 1) ? 1 : 0;
       l3 = t98 != 0 ? 0L : t97;
       final long t99 = Words.get64(b, ((int) l6) - 58800);
       final int t100 = l18;
       l5 = t100 != 0 ? 0L : t99;
       l20 = l18 != 0 ? 2 : 0;
       break L66;
      }
      Words.put64(b, ((int) l6) - 58736, l5 = (f44(m, l12, l4) + l2) + 1L);
      l18 = 1;
      l3 = Words.get64(b, ((int) l6) - 58728);
      l20 = 1;
      break L66;
     }
     f42(m, l6 + 160L, l1, l2, l18, l3, l5);
     l3 = Words.get64(b, ((int) l6) - 58728);
     l5 = Words.get64(b, ((int) l6) - 58736);
     l20 = b[((int) l6) - 58744] & 0xff;
     l18 = b[((int) l6) - 58752] & 0xff;
     break L66;
    }
    l3 = 0L;
    Words.put64(b, ((int) l6) - 58728, 0L);
    Words.put64(b, ((int) l6) - 58736, l5);
    l18 = 1;
    l20 = b[((int) l6) - 58776] & 0xff;
    break L66;
   }
   Words.put64(b, ((int) l6) - 58736, l5);
   Words.put64(b, ((int) l6) - 58744, l5);
   l3 = Words.get64(b, ((int) l6) - 58728);
   l20 = 0;
   l18 = 1;
  }
  l4 = (l20 & 0xffffffffL) & 255L;
  l12 = (l18 & 0xffffffffL) & 255L;
 }
 Words.put64(b, ((int) l0) - 58912, l12);
 Words.put64(b, ((int) (l0 + 24L)) - 58912, l3);
 Words.put64(b, ((int) (l0 + 16L)) - 58912, l5);
 Words.put64(b, ((int) (l0 + 8L)) - 58912, l4);
 m.g0 = l6 + 240L;
}

static void f39(State m, long l0, long l1, long l2, long l3) {
 final byte[] b = m.bytes;
 long l4 = 0;
 long l5 = 0;
 long l6 = 0;
 long l7 = 0;
 long l8 = 0;
 long l9 = 0;
 long l10 = 0;
 long l11 = 0;
 long l12 = 0;
 long l13 = 0;
 long l14 = 0;
 long l15 = 0;
 int l16 = 0;
 int l17 = 0;
 int l18 = 0;
 int l19 = 0;
 m.g0 = l4 = m.g0 - 48L;
 L1: {
  L2: {
   L3: {
    if ((l5 = l4) < 16L) { break L3; }
    l6 = 0L;
    l7 = 0L;
    l8 = 0L;
    L4: while (true) {
     L5: {
      L6: {
       L7: {
        L8: {
         L9: {
          L10: {
           L11: {
            L12: {
             L13: {
              L14: {
               L15: {
                if (l3 + Long.MIN_VALUE < -9223372036854775805L) { break L15; }
                final long t16 = l4 = Long.divideUnsigned(l3 + -3L, 3L);
                final int t17 = (l4 + Long.MIN_VALUE < -9223372036854775790L) ? 1 : 0;
                l10 = ((l9 = t17 != 0 ? t16 : 18L) * 3L) + 3L;
                l11 = 1L;
                l12 = 0L;
                l4 = 0L;
                l13 = 0L;
                L18: {
                 L19: while (true) {
                  if (Words.get32(b, State.far((int) (l15 = ((((l16 = (Words.get16(b, ((int) (l14 = l2 + l4)) - 58912) & 0xffff) | ((b[((int) (l14 + 2L)) - 58912] & 0xff) << 16)) & 0xffffffffL) * 953497L) >>> 22L) & 1016L), 66852)) != l16) { break L18; }
                  if ((b[((int) (l15 + 66856L)) - 58912] & 0xff) != 0) { break L18; }
                  l11 = l11 * 10L;
                  l13 = l13 + 1L;
                  l12 = (l12 * 10L) + (b[((int) (l15 + 66857L)) - 58912] & 0xffL);
                  if (l10 != (l4 = l4 + 3L)) { continue L19; }
                  break L19;
                 }
                 l2 = l2 + l4;
                 l3 = l3 - l4;
                 l13 = l9 + 1L;
                 break L7;
                }
                if (l4 != 0L) { break L13; }
                if (((l17 = b[((int) l2) - 58912] & 0xff) & 240) != 224) { break L14; }
                l16 = (((l18 = b[((int) l2) - 58910] & 0xff) + ((l19 = b[((int) l2) - 58911] & 0xff) << 6)) + (l17 << 12)) + -925824;
                l3 = l3 + -3L;
                l2 = l2 + 3L;
                if (Words.get32(b, ((int) ((l4 = ((((l17 = ((l19 << 8) | (l18 << 16)) | l17) & 0xffffffffL) * 953497L) >>> 22L) & 1016L) + 66852L)) - 58912) != l17) { break L10; }
                break L11;
               }
               if (l3 == 0L) { break L12; }
               l17 = b[((int) l2) - 58912] & 0xff;
              }
              l16 = l17 & 255;
              l4 = 1L;
              L20: {
               if (((int) (byte) l17) > -1) { break L20; }
               l18 = (b[((int) l2) - 58911] & 0xff) & 63;
               L21: {
                if ((l17 & 255) + Integer.MIN_VALUE > -2147483425) { break L21; }
                l16 = ((l16 << 6) & 1984) | l18;
                l4 = 2L;
                break L20;
               }
               l19 = (b[((int) l2) - 58910] & 0xff) & 63;
               L22: {
                if ((l17 & 255) + Integer.MIN_VALUE > -2147483409) { break L22; }
                l16 = ((l18 << 6) | ((l16 << 12) & 61440)) | l19;
                l4 = 3L;
                break L20;
               }
               l16 = ((l19 << 6) | ((l18 << 12) | ((l16 << 18) & 1835008))) | ((b[((int) l2) - 58909] & 0xff) & 63);
               l4 = 4L;
              }
              l3 = l3 - l4;
              l2 = l2 + l4;
              L23: {
               if ((l16 + -2048) + Integer.MIN_VALUE > -2147420161) { break L23; }
               if (Words.get32(b, ((int) ((l4 = ((((l17 = (((l16 >>> 12) | ((l16 << 2) & 16128)) | ((l16 << 16) & 4128768)) | 8421600) & 0xffffffffL) * 953497L) >>> 22L) & 1016L) + 66852L)) - 58912) == l17) { break L11; }
               break L6;
              }
              if ((l17 = l16 + -48) + Integer.MIN_VALUE < -2147483638) { break L8; }
              break L10;
             }
             l3 = l3 - l4;
             l2 = l14;
             break L7;
            }
            Words.put64(b, ((int) (l0 + 8L)) - 58912, 0L);
            Words.put64(b, ((int) (l0 + 24L)) - 58912, ((l16 = (l7 == 0L) ? 1 : 0) != 0) ? 0L : l6);
            Words.put64(b, ((int) (l0 + 16L)) - 58912, l16 != 0 ? 0L : l8);
            Words.put64(b, ((int) l0) - 58912, l16 & 0xffffffffL);
            break L1;
           }
           if ((l17 = b[((int) (l4 + 66856L)) - 58912] & 0xff) == 2) { break L10; }
           switch (l17) {
           case 1: break L2;
           default: break L9;
           }
          }
          if (l16 + Integer.MIN_VALUE > -2147483521) { break L6; }
          if ((l16 + -9) + Integer.MIN_VALUE < -2147483643) { break L5; }
          if (l16 != 32) { break L2; }
          break L5;
         }
         l17 = b[((int) (l4 + 66857L)) - 58912] & 0xff;
        }
        l12 = (l17 & 0xffffffffL) & 255L;
        l11 = 10L;
        l13 = 1L;
       }
       L24: {
        L25: {
         L26: {
          if (l6 != 0L) { break L26; }
          Core1.f3(m, l5, l8, l6, l11, 0L);
          l15 = Words.get64(b, ((int) l5) - 58904);
          l4 = Words.get64(b, ((int) l5) - 58912);
          break L25;
         }
         Core1.f3(m, l5 + 16L, l8, 0L, l11, 0L);
         Core1.f3(m, l5 + 32L, l6, 0L, l11, 0L);
         if ((Words.get64(b, ((int) l5) - 58872) + (((l15 = (l4 = Words.get64(b, ((int) l5) - 58888)) + Words.get64(b, ((int) l5) - 58880)) + Long.MIN_VALUE < l4 + Long.MIN_VALUE) ? 1L : 0L)) != 0L) { break L24; }
         final int t27 = ((l4 = Words.get64(b, ((int) l5) - 58896)) + Long.MIN_VALUE > (l12 ^ -1L) + Long.MIN_VALUE) ? 1 : 0;
         final int t28 = (l15 == -1L) ? 1 : 0;
         if ((t28 != 0 ? t27 : 0) != 0) { break L24; }
        }
        l7 = l13 + l7;
        l6 = l15 + (((l8 = l4 + l12) + Long.MIN_VALUE < l4 + Long.MIN_VALUE) ? 1L : 0L);
        continue L4;
       }
       Words.put64(b, ((int) l0) - 58912, 1L);
       Words.put64(b, ((int) (l0 + 24L)) - 58912, 0L);
       Words.put64(b, ((int) (l0 + 16L)) - 58912, 0L);
       Words.put64(b, ((int) (l0 + 8L)) - 58912, 2L);
       break L1;
      }
      if ((l16 + -8192) + Integer.MIN_VALUE < -2147483637) { break L5; }
      L29: {
       if (l16 > 8231) { break L29; }
       if (l16 == 133) { break L5; }
       if (l16 == 160) { break L5; }
       if (l16 == 5760) { break L5; }
       break L2;
      }
      L30: {
       if ((l17 = l16 + -8232) + Integer.MIN_VALUE > -2147483593) { break L30; }
       if (((1L << (l17 & 0xffffffffL)) & 36028797018964099L) != 0L) { break L5; }
      }
      if (l16 != 12288) { break L2; }
     }
     l1 = l1 + 1L;
     continue L4;
    }
   }
   throw State.trap();
  }
  Words.put64(b, ((int) l0) - 58912, 1L);
  Words.put64(b, ((int) (l0 + 24L)) - 58912, 0L);
  Words.put64(b, ((int) (l0 + 16L)) - 58912, l1 + l7);
  Words.put64(b, ((int) (l0 + 8L)) - 58912, 1L);
 }
 m.g0 = l5 + 48L;
}

static int f40_1(State m, long l0, long l1, long l2, long l3, long l4, long l5, long l6, long l7, long l8, long l9, int l10) {
 final byte[] b = m.bytes;
 int exit = 0;
 PART: {
  L2: {
   L3: {
    if (m.g0 < 16L) { break L3; }
    L4: {
     if (l1 + Long.MIN_VALUE > -9223372036854775800L) { break L4; }
     l10 = ((((((b[((int) l0) - 58912] & 0xff) != (b[((int) l2) - 58912] & 0xff)) | ((b[((int) (l0 + 1L)) - 58912] & 0xff) != (b[((int) (l2 + 1L)) - 58912] & 0xff))) | ((b[((int) (l0 + 2L)) - 58912] & 0xff) != (b[((int) (l2 + 2L)) - 58912] & 0xff))) | ((b[((int) (l0 + 3L)) - 58912] & 0xff) != (b[((int) (l2 + 3L)) - 58912] & 0xff))) | (((((b[((int) (l0 + (l3 = l1 + -4L))) - 58912] & 0xff) != (b[((int) (l2 + l3)) - 58912] & 0xff)) | ((b[((int) (l0 + (l3 = l1 + -3L))) - 58912] & 0xff) != (b[((int) (l2 + l3)) - 58912] & 0xff))) | ((b[((int) (l0 + (l3 = l1 + -2L))) - 58912] & 0xff) != (b[((int) (l2 + l3)) - 58912] & 0xff))) | ((b[((int) (l0 + (l3 = l1 + -1L))) - 58912] & 0xff) != (b[((int) (l2 + l3)) - 58912] & 0xff)))) ? 1 : 0;
     exit = 1; break PART;
    }
    L5: {
     if (l1 + Long.MIN_VALUE > -9223372036854775776L) { break L5; }
     final long t6 = l0;
     final long t7 = l1 = l1 + -8L;
     final int t8 = (l1 + Long.MIN_VALUE < -9223372036854775800L) ? 1 : 0;
     l10 = ((((((((((((((b[((int) (l3 = t6 + (l4 = t8 != 0 ? t7 : 8L))) - 58912] & 0xff) != (b[((int) (l4 = l2 + l4)) - 58912] & 0xff)) | ((b[((int) (l6 = l0 + (l5 = (l1 + Long.MIN_VALUE < -9223372036854775792L) ? l1 : 16L))) - 58912] & 0xff) != (b[((int) (l5 = l2 + l5)) - 58912] & 0xff))) | ((b[((int) (l7 = l0 + l1)) - 58912] & 0xff) != (b[((int) (l1 = l2 + l1)) - 58912] & 0xff))) ? 1 : 0) | ((((((b[((int) l3) - 58911] & 0xff) != (b[((int) l4) - 58911] & 0xff)) | ((b[((int) l6) - 58911] & 0xff) != (b[((int) l5) - 58911] & 0xff))) | ((b[((int) l7) - 58911] & 0xff) != (b[((int) l1) - 58911] & 0xff))) ? 1 : 0) << 1)) | (((((((b[((int) l3) - 58909] & 0xff) != (b[((int) l4) - 58909] & 0xff)) | ((b[((int) l6) - 58909] & 0xff) != (b[((int) l5) - 58909] & 0xff))) | ((b[((int) l7) - 58909] & 0xff) != (b[((int) l1) - 58909] & 0xff))) ? 1 : 0) << 3) | ((((((b[((int) l3) - 58910] & 0xff) != (b[((int) l4) - 58910] & 0xff)) | ((b[((int) l6) - 58910] & 0xff) != (b[((int) l5) - 58910] & 0xff))) | ((b[((int) l7) - 58910] & 0xff) != (b[((int) l1) - 58910] & 0xff))) ? 1 : 0) << 2))) | ((((((((b[((int) l3) - 58908] & 0xff) != (b[((int) l4) - 58908] & 0xff)) | ((b[((int) l6) - 58908] & 0xff) != (b[((int) l5) - 58908] & 0xff))) | ((b[((int) l7) - 58908] & 0xff) != (b[((int) l1) - 58908] & 0xff))) ? 1 : 0) | ((((((b[((int) l3) - 58907] & 0xff) != (b[((int) l4) - 58907] & 0xff)) | ((b[((int) l6) - 58907] & 0xff) != (b[((int) l5) - 58907] & 0xff))) | ((b[((int) l7) - 58907] & 0xff) != (b[((int) l1) - 58907] & 0xff))) ? 1 : 0) << 1)) | (((((((b[((int) l3) - 58905] & 0xff) != (b[((int) l4) - 58905] & 0xff)) | ((b[((int) l6) - 58905] & 0xff) != (b[((int) l5) - 58905] & 0xff))) | ((b[((int) l7) - 58905] & 0xff) != (b[((int) l1) - 58905] & 0xff))) ? 1 : 0) << 3) | ((((((b[((int) l3) - 58906] & 0xff) != (b[((int) l4) - 58906] & 0xff)) | ((b[((int) l6) - 58906] & 0xff) != (b[((int) l5) - 58906] & 0xff))) | ((b[((int) l7) - 58906] & 0xff) != (b[((int) l1) - 58906] & 0xff))) ? 1 : 0) << 2))) << 4)) & 255) != 0) | ((b[((int) l0) - 58912] & 0xff) != (b[((int) l2) - 58912] & 0xff))) | (((b[((int) (l0 + 1L)) - 58912] & 0xff) != (b[((int) (l2 + 1L)) - 58912] & 0xff)) | ((b[((int) (l0 + 2L)) - 58912] & 0xff) != (b[((int) (l2 + 2L)) - 58912] & 0xff)))) | ((((b[((int) (l0 + 3L)) - 58912] & 0xff) != (b[((int) (l2 + 3L)) - 58912] & 0xff)) | ((b[((int) (l0 + 4L)) - 58912] & 0xff) != (b[((int) (l2 + 4L)) - 58912] & 0xff))) | (((b[((int) (l0 + 5L)) - 58912] & 0xff) != (b[((int) (l2 + 5L)) - 58912] & 0xff)) | ((b[((int) (l0 + 6L)) - 58912] & 0xff) != (b[((int) (l2 + 6L)) - 58912] & 0xff))))) | ((b[((int) (l0 + 7L)) - 58912] & 0xff) != (b[((int) (l2 + 7L)) - 58912] & 0xff))) ? 1 : 0;
     exit = 1; break PART;
    }
    if (l1 + Long.MIN_VALUE < -9223372036854775743L) { break L2; }
    l8 = l1 & -64L;
    l9 = 0L;
    l5 = l0;
    l7 = l2;
    L9: {
     L10: while (true) {
      l10 = 0;
      l3 = 0L;
      L11: while (true) {
       l10 = (l10 | (((b[((int) (l4 = l5 + l3)) - 58912] & 0xff) != (b[((int) (l6 = l7 + l3)) - 58912] & 0xff)) ? 1 : 0)) | (((b[((int) (l4 + 1L)) - 58912] & 0xff) != (b[((int) (l6 + 1L)) - 58912] & 0xff)) ? 1 : 0);
       if ((l3 = l3 + 2L) != 64L) { continue L11; }
       break L11;
      }
      if ((l10 & 1) != 0) { break L9; }
      l5 = l5 + 64L;
      l7 = l7 + 64L;
      if ((l1 - (l9 = l9 + 64L)) + Long.MIN_VALUE > -9223372036854775745L) { continue L10; }
      break L10;
     }
     l9 = l8;
    }
    L12: {
     if ((l6 = l1 - l9) + Long.MIN_VALUE < -9223372036854775776L) { break L12; }
     l3 = l2 + l9;
     l4 = l0 + l9;
     L13: {
      L14: while (true) {
       l10 = 1;
       if ((((((((((b[((int) l4) - 58912] & 0xff) != (b[((int) l3) - 58912] & 0xff)) ? 1 : 0) | ((((b[((int) l4) - 58911] & 0xff) != (b[((int) l3) - 58911] & 0xff)) ? 1 : 0) << 1)) | (((((b[((int) l4) - 58909] & 0xff) != (b[((int) l3) - 58909] & 0xff)) ? 1 : 0) << 3) | ((((b[((int) l4) - 58910] & 0xff) != (b[((int) l3) - 58910] & 0xff)) ? 1 : 0) << 2))) | ((((((b[((int) l4) - 58908] & 0xff) != (b[((int) l3) - 58908] & 0xff)) ? 1 : 0) | ((((b[((int) l4) - 58907] & 0xff) != (b[((int) l3) - 58907] & 0xff)) ? 1 : 0) << 1)) | (((((b[((int) l4) - 58905] & 0xff) != (b[((int) l3) - 58905] & 0xff)) ? 1 : 0) << 3) | ((((b[((int) l4) - 58906] & 0xff) != (b[((int) l3) - 58906] & 0xff)) ? 1 : 0) << 2))) << 4)) | (((((((b[((int) l4) - 58900] & 0xff) != (b[((int) l3) - 58900] & 0xff)) ? 1 : 0) | ((((b[((int) l4) - 58899] & 0xff) != (b[((int) l3) - 58899] & 0xff)) ? 1 : 0) << 1)) | (((((b[((int) l4) - 58897] & 0xff) != (b[((int) l3) - 58897] & 0xff)) ? 1 : 0) << 3) | ((((b[((int) l4) - 58898] & 0xff) != (b[((int) l3) - 58898] & 0xff)) ? 1 : 0) << 2))) << 12) | ((((((b[((int) l4) - 58904] & 0xff) != (b[((int) l3) - 58904] & 0xff)) ? 1 : 0) | ((((b[((int) l4) - 58903] & 0xff) != (b[((int) l3) - 58903] & 0xff)) ? 1 : 0) << 1)) | (((((b[((int) l4) - 58901] & 0xff) != (b[((int) l3) - 58901] & 0xff)) ? 1 : 0) << 3) | ((((b[((int) l4) - 58902] & 0xff) != (b[((int) l3) - 58902] & 0xff)) ? 1 : 0) << 2))) << 8))) | (((((((b[((int) l4) - 58896] & 0xff) != (b[((int) l3) - 58896] & 0xff)) ? 1 : 0) | ((((b[((int) l4) - 58895] & 0xff) != (b[((int) l3) - 58895] & 0xff)) ? 1 : 0) << 1)) | (((((b[((int) l4) - 58893] & 0xff) != (b[((int) l3) - 58893] & 0xff)) ? 1 : 0) << 3) | ((((b[((int) l4) - 58894] & 0xff) != (b[((int) l3) - 58894] & 0xff)) ? 1 : 0) << 2))) | ((((((b[((int) l4) - 58892] & 0xff) != (b[((int) l3) - 58892] & 0xff)) ? 1 : 0) | ((((b[((int) l4) - 58891] & 0xff) != (b[((int) l3) - 58891] & 0xff)) ? 1 : 0) << 1)) | (((((b[((int) l4) - 58889] & 0xff) != (b[((int) l3) - 58889] & 0xff)) ? 1 : 0) << 3) | ((((b[((int) l4) - 58890] & 0xff) != (b[((int) l3) - 58890] & 0xff)) ? 1 : 0) << 2))) << 4)) | (((((((b[((int) l4) - 58884] & 0xff) != (b[((int) l3) - 58884] & 0xff)) ? 1 : 0) | ((((b[((int) l4) - 58883] & 0xff) != (b[((int) l3) - 58883] & 0xff)) ? 1 : 0) << 1)) | (((((b[((int) l4) - 58881] & 0xff) != (b[((int) l3) - 58881] & 0xff)) ? 1 : 0) << 3) | ((((b[((int) l4) - 58882] & 0xff) != (b[((int) l3) - 58882] & 0xff)) ? 1 : 0) << 2))) << 12) | ((((((b[((int) l4) - 58888] & 0xff) != (b[((int) l3) - 58888] & 0xff)) ? 1 : 0) | ((((b[((int) l4) - 58887] & 0xff) != (b[((int) l3) - 58887] & 0xff)) ? 1 : 0) << 1)) | (((((b[((int) l4) - 58885] & 0xff) != (b[((int) l3) - 58885] & 0xff)) ? 1 : 0) << 3) | ((((b[((int) l4) - 58886] & 0xff) != (b[((int) l3) - 58886] & 0xff)) ? 1 : 0) << 2))) << 8)))) & 65535) != 0) { break L13; }
       l3 = l3 + 32L;
       l4 = l4 + 32L;
       if ((l6 = l6 + -32L) + Long.MIN_VALUE >= -9223372036854775776L) { continue L14; }
       break L12;
      }
     }
     if (l6 + Long.MIN_VALUE > -9223372036854775777L) { exit = 1; break PART; }
    }
    l10 = ((((((((((b[((int) (l3 = l0 + (l4 = l1 + -32L))) - 58912] & 0xff) != (b[((int) (l4 = l2 + l4)) - 58912] & 0xff)) ? 1 : 0) | ((((b[((int) l3) - 58911] & 0xff) != (b[((int) l4) - 58911] & 0xff)) ? 1 : 0) << 1)) | (((((b[((int) l3) - 58909] & 0xff) != (b[((int) l4) - 58909] & 0xff)) ? 1 : 0) << 3) | ((((b[((int) l3) - 58910] & 0xff) != (b[((int) l4) - 58910] & 0xff)) ? 1 : 0) << 2))) | ((((((b[((int) l3) - 58908] & 0xff) != (b[((int) l4) - 58908] & 0xff)) ? 1 : 0) | ((((b[((int) l3) - 58907] & 0xff) != (b[((int) l4) - 58907] & 0xff)) ? 1 : 0) << 1)) | (((((b[((int) l3) - 58905] & 0xff) != (b[((int) l4) - 58905] & 0xff)) ? 1 : 0) << 3) | ((((b[((int) l3) - 58906] & 0xff) != (b[((int) l4) - 58906] & 0xff)) ? 1 : 0) << 2))) << 4)) | (((((((b[((int) l3) - 58900] & 0xff) != (b[((int) l4) - 58900] & 0xff)) ? 1 : 0) | ((((b[((int) l3) - 58899] & 0xff) != (b[((int) l4) - 58899] & 0xff)) ? 1 : 0) << 1)) | (((((b[((int) l3) - 58897] & 0xff) != (b[((int) l4) - 58897] & 0xff)) ? 1 : 0) << 3) | ((((b[((int) l3) - 58898] & 0xff) != (b[((int) l4) - 58898] & 0xff)) ? 1 : 0) << 2))) << 12) | ((((((b[((int) l3) - 58904] & 0xff) != (b[((int) l4) - 58904] & 0xff)) ? 1 : 0) | ((((b[((int) l3) - 58903] & 0xff) != (b[((int) l4) - 58903] & 0xff)) ? 1 : 0) << 1)) | (((((b[((int) l3) - 58901] & 0xff) != (b[((int) l4) - 58901] & 0xff)) ? 1 : 0) << 3) | ((((b[((int) l3) - 58902] & 0xff) != (b[((int) l4) - 58902] & 0xff)) ? 1 : 0) << 2))) << 8))) | (((((((b[((int) l3) - 58896] & 0xff) != (b[((int) l4) - 58896] & 0xff)) ? 1 : 0) | ((((b[((int) l3) - 58895] & 0xff) != (b[((int) l4) - 58895] & 0xff)) ? 1 : 0) << 1)) | (((((b[((int) l3) - 58893] & 0xff) != (b[((int) l4) - 58893] & 0xff)) ? 1 : 0) << 3) | ((((b[((int) l3) - 58894] & 0xff) != (b[((int) l4) - 58894] & 0xff)) ? 1 : 0) << 2))) | ((((((b[((int) l3) - 58892] & 0xff) != (b[((int) l4) - 58892] & 0xff)) ? 1 : 0) | ((((b[((int) l3) - 58891] & 0xff) != (b[((int) l4) - 58891] & 0xff)) ? 1 : 0) << 1)) | (((((b[((int) l3) - 58889] & 0xff) != (b[((int) l4) - 58889] & 0xff)) ? 1 : 0) << 3) | ((((b[((int) l3) - 58890] & 0xff) != (b[((int) l4) - 58890] & 0xff)) ? 1 : 0) << 2))) << 4)) | (((((((b[((int) l3) - 58884] & 0xff) != (b[((int) l4) - 58884] & 0xff)) ? 1 : 0) | ((((b[((int) l3) - 58883] & 0xff) != (b[((int) l4) - 58883] & 0xff)) ? 1 : 0) << 1)) | (((((b[((int) l3) - 58881] & 0xff) != (b[((int) l4) - 58881] & 0xff)) ? 1 : 0) << 3) | ((((b[((int) l3) - 58882] & 0xff) != (b[((int) l4) - 58882] & 0xff)) ? 1 : 0) << 2))) << 12) | ((((((b[((int) l3) - 58888] & 0xff) != (b[((int) l4) - 58888] & 0xff)) ? 1 : 0) | ((((b[((int) l3) - 58887] & 0xff) != (b[((int) l4) - 58887] & 0xff)) ? 1 : 0) << 1)) | (((((b[((int) l3) - 58885] & 0xff) != (b[((int) l4) - 58885] & 0xff)) ? 1 : 0) << 3) | ((((b[((int) l3) - 58886] & 0xff) != (b[((int) l4) - 58886] & 0xff)) ? 1 : 0) << 2))) << 8)))) & 65535) != 0) ? 1 : 0;
    exit = 1; break PART;
   }
   throw State.trap();
  }
 }
 m.kept[0] = l1;
 m.kept[1] = l3;
 m.kept[2] = l4;
 m.kept[3] = l5;
 m.kept[4] = l6;
 m.kept[5] = l7;
 m.kept[6] = l8;
 m.kept[7] = l9;
 m.kept[8] = l10;
 return exit;
}

static int f40(State m, long l0, long l1, long l2) {
 final byte[] b = m.bytes;
 long l3 = 0;
 long l4 = 0;
 long l5 = 0;
 long l6 = 0;
 long l7 = 0;
 long l8 = 0;
 long l9 = 0;
 int l10 = 0;
 L1: {
  final int x15 = f40_1(m, l0, l1, l2, l3, l4, l5, l6, l7, l8, l9, l10);
  l1 = m.kept[0];
  l3 = m.kept[1];
  l4 = m.kept[2];
  l5 = m.kept[3];
  l6 = m.kept[4];
  l7 = m.kept[5];
  l8 = m.kept[6];
  l9 = m.kept[7];
  l10 = (int) m.kept[8];
  switch (x15) {
  case 1: break L1;
  }
  l10 = ((((((((((((((((b[((int) (l3 = l0 + (l4 = l1 + -32L))) - 58912] & 0xff) != (b[((int) (l4 = l2 + l4)) - 58912] & 0xff)) ? 1 : 0) | ((((b[((int) l3) - 58911] & 0xff) != (b[((int) l4) - 58911] & 0xff)) ? 1 : 0) << 1)) | (((((b[((int) l3) - 58909] & 0xff) != (b[((int) l4) - 58909] & 0xff)) ? 1 : 0) << 3) | ((((b[((int) l3) - 58910] & 0xff) != (b[((int) l4) - 58910] & 0xff)) ? 1 : 0) << 2))) | ((((((b[((int) l3) - 58908] & 0xff) != (b[((int) l4) - 58908] & 0xff)) ? 1 : 0) | ((((b[((int) l3) - 58907] & 0xff) != (b[((int) l4) - 58907] & 0xff)) ? 1 : 0) << 1)) | (((((b[((int) l3) - 58905] & 0xff) != (b[((int) l4) - 58905] & 0xff)) ? 1 : 0) << 3) | ((((b[((int) l3) - 58906] & 0xff) != (b[((int) l4) - 58906] & 0xff)) ? 1 : 0) << 2))) << 4)) | (((((((b[((int) l3) - 58900] & 0xff) != (b[((int) l4) - 58900] & 0xff)) ? 1 : 0) | ((((b[((int) l3) - 58899] & 0xff) != (b[((int) l4) - 58899] & 0xff)) ? 1 : 0) << 1)) | (((((b[((int) l3) - 58897] & 0xff) != (b[((int) l4) - 58897] & 0xff)) ? 1 : 0) << 3) | ((((b[((int) l3) - 58898] & 0xff) != (b[((int) l4) - 58898] & 0xff)) ? 1 : 0) << 2))) << 12) | ((((((b[((int) l3) - 58904] & 0xff) != (b[((int) l4) - 58904] & 0xff)) ? 1 : 0) | ((((b[((int) l3) - 58903] & 0xff) != (b[((int) l4) - 58903] & 0xff)) ? 1 : 0) << 1)) | (((((b[((int) l3) - 58901] & 0xff) != (b[((int) l4) - 58901] & 0xff)) ? 1 : 0) << 3) | ((((b[((int) l3) - 58902] & 0xff) != (b[((int) l4) - 58902] & 0xff)) ? 1 : 0) << 2))) << 8))) | (((((((b[((int) l3) - 58896] & 0xff) != (b[((int) l4) - 58896] & 0xff)) ? 1 : 0) | ((((b[((int) l3) - 58895] & 0xff) != (b[((int) l4) - 58895] & 0xff)) ? 1 : 0) << 1)) | (((((b[((int) l3) - 58893] & 0xff) != (b[((int) l4) - 58893] & 0xff)) ? 1 : 0) << 3) | ((((b[((int) l3) - 58894] & 0xff) != (b[((int) l4) - 58894] & 0xff)) ? 1 : 0) << 2))) | ((((((b[((int) l3) - 58892] & 0xff) != (b[((int) l4) - 58892] & 0xff)) ? 1 : 0) | ((((b[((int) l3) - 58891] & 0xff) != (b[((int) l4) - 58891] & 0xff)) ? 1 : 0) << 1)) | (((((b[((int) l3) - 58889] & 0xff) != (b[((int) l4) - 58889] & 0xff)) ? 1 : 0) << 3) | ((((b[((int) l3) - 58890] & 0xff) != (b[((int) l4) - 58890] & 0xff)) ? 1 : 0) << 2))) << 4)) | (((((((b[((int) l3) - 58884] & 0xff) != (b[((int) l4) - 58884] & 0xff)) ? 1 : 0) | ((((b[((int) l3) - 58883] & 0xff) != (b[((int) l4) - 58883] & 0xff)) ? 1 : 0) << 1)) | (((((b[((int) l3) - 58881] & 0xff) != (b[((int) l4) - 58881] & 0xff)) ? 1 : 0) << 3) | ((((b[((int) l3) - 58882] & 0xff) != (b[((int) l4) - 58882] & 0xff)) ? 1 : 0) << 2))) << 12) | ((((((b[((int) l3) - 58888] & 0xff) != (b[((int) l4) - 58888] & 0xff)) ? 1 : 0) | ((((b[((int) l3) - 58887] & 0xff) != (b[((int) l4) - 58887] & 0xff)) ? 1 : 0) << 1)) | (((((b[((int) l3) - 58885] & 0xff) != (b[((int) l4) - 58885] & 0xff)) ? 1 : 0) << 3) | ((((b[((int) l3) - 58886] & 0xff) != (b[((int) l4) - 58886] & 0xff)) ? 1 : 0) << 2))) << 8)))) & 65535) != 0) | ((b[((int) l0) - 58912] & 0xff) != (b[((int) l2) - 58912] & 0xff))) | (((b[((int) (l0 + 1L)) - 58912] & 0xff) != (b[((int) (l2 + 1L)) - 58912] & 0xff)) | ((b[((int) (l0 + 2L)) - 58912] & 0xff) != (b[((int) (l2 + 2L)) - 58912] & 0xff)))) | ((((b[((int) (l0 + 3L)) - 58912] & 0xff) != (b[((int) (l2 + 3L)) - 58912] & 0xff)) | ((b[((int) (l0 + 4L)) - 58912] & 0xff) != (b[((int) (l2 + 4L)) - 58912] & 0xff))) | (((b[((int) (l0 + 5L)) - 58912] & 0xff) != (b[((int) (l2 + 5L)) - 58912] & 0xff)) | ((b[((int) (l0 + 6L)) - 58912] & 0xff) != (b[((int) (l2 + 6L)) - 58912] & 0xff))))) | (((((b[((int) (l0 + 7L)) - 58912] & 0xff) != (b[((int) (l2 + 7L)) - 58912] & 0xff)) | ((b[((int) (l0 + 8L)) - 58912] & 0xff) != (b[((int) (l2 + 8L)) - 58912] & 0xff))) | (((b[((int) (l0 + 9L)) - 58912] & 0xff) != (b[((int) (l2 + 9L)) - 58912] & 0xff)) | ((b[((int) (l0 + 10L)) - 58912] & 0xff) != (b[((int) (l2 + 10L)) - 58912] & 0xff)))) | ((((b[((int) (l0 + 11L)) - 58912] & 0xff) != (b[((int) (l2 + 11L)) - 58912] & 0xff)) | ((b[((int) (l0 + 12L)) - 58912] & 0xff) != (b[((int) (l2 + 12L)) - 58912] & 0xff))) | (((b[((int) (l0 + 13L)) - 58912] & 0xff) != (b[((int) (l2 + 13L)) - 58912] & 0xff)) | ((b[((int) (l0 + 14L)) - 58912] & 0xff) != (b[((int) (l2 + 14L)) - 58912] & 0xff)))))) | ((((((b[((int) (l0 + 15L)) - 58912] & 0xff) != (b[((int) (l2 + 15L)) - 58912] & 0xff)) | ((b[((int) (l0 + 16L)) - 58912] & 0xff) != (b[((int) (l2 + 16L)) - 58912] & 0xff))) | (((b[((int) (l0 + 17L)) - 58912] & 0xff) != (b[((int) (l2 + 17L)) - 58912] & 0xff)) | ((b[((int) (l0 + 18L)) - 58912] & 0xff) != (b[((int) (l2 + 18L)) - 58912] & 0xff)))) | ((((b[((int) (l0 + 19L)) - 58912] & 0xff) != (b[((int) (l2 + 19L)) - 58912] & 0xff)) | ((b[((int) (l0 + 20L)) - 58912] & 0xff) != (b[((int) (l2 + 20L)) - 58912] & 0xff))) | (((b[((int) (l0 + 21L)) - 58912] & 0xff) != (b[((int) (l2 + 21L)) - 58912] & 0xff)) | ((b[((int) (l0 + 22L)) - 58912] & 0xff) != (b[((int) (l2 + 22L)) - 58912] & 0xff))))) | (((((b[((int) (l0 + 23L)) - 58912] & 0xff) != (b[((int) (l2 + 23L)) - 58912] & 0xff)) | ((b[((int) (l0 + 24L)) - 58912] & 0xff) != (b[((int) (l2 + 24L)) - 58912] & 0xff))) | (((b[((int) (l0 + 25L)) - 58912] & 0xff) != (b[((int) (l2 + 25L)) - 58912] & 0xff)) | ((b[((int) (l0 + 26L)) - 58912] & 0xff) != (b[((int) (l2 + 26L)) - 58912] & 0xff)))) | ((((b[((int) (l0 + 27L)) - 58912] & 0xff) != (b[((int) (l2 + 27L)) - 58912] & 0xff)) | ((b[((int) (l0 + 28L)) - 58912] & 0xff) != (b[((int) (l2 + 28L)) - 58912] & 0xff))) | (((b[((int) (l0 + 29L)) - 58912] & 0xff) != (b[((int) (l2 + 29L)) - 58912] & 0xff)) | ((b[((int) (l0 + 30L)) - 58912] & 0xff) != (b[((int) (l2 + 30L)) - 58912] & 0xff))))))) | ((b[((int) (l0 + 31L)) - 58912] & 0xff) != (b[((int) (l2 + 31L)) - 58912] & 0xff))) ? 1 : 0;
 }
 return (l10 ^ -1) & 1;
}

static void f41(State m, long l0, long l1, long l2) {
 final byte[] b = m.bytes;
 long l3 = 0;
 long l4 = 0;
 int l5 = 0;
 int l6 = 0;
 int l7 = 0;
 int l8 = 0;
 L1: {
  L2: {
   L3: {
    L4: {
     L5: {
      L6: {
       L7: {
        if (m.g0 < 16L) { break L7; }
        L8: {
         if (l2 == 0L) { break L8; }
         L9: while (true) {
          l3 = -1L;
          L10: {
           if (((l5 = b[((int) ((l4 = l1 + l2) + -1L)) - 58912] & 0xff) + -9) + Integer.MIN_VALUE < -2147483643) { break L10; }
           if (l5 == 32) { break L10; }
           l3 = 1L;
           if (l2 == 1L) { break L5; }
           l3 = 2L;
           L11: {
            if (l2 + Long.MIN_VALUE > -9223372036854775806L) { break L11; }
            L12: {
             if ((l5 = b[((int) l1) - 58911] & 0xff) == 160) { break L12; }
             if (l5 != 133) { break L5; }
            }
            if ((b[((int) l1) - 58912] & 0xff) != 194) { break L5; }
            l3 = -2L;
            break L10;
           }
           L13: {
            L14: {
             L15: {
              if (l5 == 160) { break L15; }
              if (l5 != 133) { break L14; }
             }
             l3 = -2L;
             if ((l6 = b[((int) (l4 + -2L)) - 58912] & 0xff) != 194) { break L13; }
             break L10;
            }
            if (((int) (byte) l5) > -1) { break L6; }
            l6 = b[((int) (l4 + -2L)) - 58912] & 0xff;
           }
           L16: {
            if ((l7 = b[((int) (l4 + -3L)) - 58912] & 0xff) != 226) { break L16; }
            if ((l6 & 255) != 128) { break L16; }
            l3 = -3L;
            if (l5 + Integer.MIN_VALUE < -2147483509) { break L10; }
            if ((l5 = l5 + -168) + Integer.MIN_VALUE > -2147483641) { break L6; }
            if (((1 << l5) & 131) == 0) { break L6; }
            break L10;
           }
           L17: {
            L18: {
             L19: {
              L20: {
               switch (l7 + -225) {
               case 0: break L20;
               case 1: break L19;
               case 2: break L18;
               default: break L6;
               }
              }
              if (l5 != 128) { break L6; }
              if ((l6 & 255) != 154) { break L6; }
              break L17;
             }
             if (l5 != 159) { break L6; }
             if ((l6 & 255) == 129) { break L17; }
             break L6;
            }
            if (l5 != 128) { break L6; }
            if ((l6 & 255) != 128) { break L6; }
           }
           l3 = -3L;
          }
          if (!((l2 = l3 + l2) == 0L)) { continue L9; }
          break L9;
         }
        }
        Words.put64(b, ((int) l0) - 58912, 0L);
        Words.put64(b, ((int) (l0 + 16L)) - 58912, 0L);
        Words.put16(b, ((int) (l0 + 8L)) - 58912, (short) 0);
        Words.put64(b, ((int) (l0 + 24L)) - 58912, 0L);
        return;
       }
       throw State.trap();
      }
      if (((l5 = b[((int) (l4 + -3L)) - 58912] & 0xff) & 240) == 224) { break L4; }
      l3 = l2;
     }
     if ((l5 = (int) b[((int) (l1 + (l2 = l3 + -1L))) - 58912]) >= 0) { break L2; }
     l2 = -2L;
     L21: {
      if ((b[((int) ((l4 = l1 + l3) + -2L)) - 58912] & 0xff) + Integer.MIN_VALUE > -2147483457) { break L21; }
      l2 = ((b[((int) (l4 + -3L)) - 58912] & 0xff) + Integer.MIN_VALUE > -2147483457) ? -3L : -4L;
     }
     l5 = (l6 = (int) b[((int) (l3 = l1 + (l2 = l2 + l3))) - 58912]) & 255;
     if (l6 > -1) { break L2; }
     l7 = (b[((int) l3) - 58911] & 0xff) & 63;
     if (l6 + Integer.MIN_VALUE > 2147483615) { break L3; }
     l5 = ((l5 << 6) & 1984) | l7;
     break L2;
    }
    final int t22 = b[((int) ((l3 = ((((l5 = (((b[((int) (l4 + -2L)) - 58912] & 0xff) << 8) | ((b[((int) (l4 + -1L)) - 58912] & 0xff) << 16)) | l5) & 0xffffffffL) * 953497L) >>> 22L) & 1016L) + 66857L)) - 58912] & 0xff;
    final int t23 = l6 = (Words.get32(b, State.far((int) l3, 66852)) == l5) ? 1 : 0;
    l5 = t23 != 0 ? t22 : 0;
    final int t24 = b[((int) (l3 + 66856L)) - 58912] & 0xff;
    final int t25 = l6;
    l6 = t25 != 0 ? t24 : 2;
    l2 = l2 + -3L;
    break L1;
   }
   l8 = (b[((int) l3) - 58910] & 0xff) & 63;
   L26: {
    L27: {
     if (l6 + Integer.MIN_VALUE > 2147483631) { break L27; }
     l5 = ((l7 << 6) | ((l5 << 12) & 61440)) | l8;
     break L26;
    }
    l5 = ((l8 << 6) | ((l7 << 12) | ((l5 << 18) & 1835008))) | ((b[((int) l3) - 58909] & 0xff) & 63);
   }
   if ((l5 + -2048) + Integer.MIN_VALUE > -2147420161) { break L2; }
   final int t28 = b[((int) ((l3 = ((((l5 = (((l5 >>> 12) | ((l5 << 2) & 16128)) | ((l5 << 16) & 4128768)) | 8421600) & 0xffffffffL) * 953497L) >>> 22L) & 1016L) + 66857L)) - 58912] & 0xff;
   final int t29 = l6 = (Words.get32(b, State.far((int) l3, 66852)) == l5) ? 1 : 0;
   l5 = t29 != 0 ? t28 : 0;
   final int t30 = b[((int) (l3 + 66856L)) - 58912] & 0xff;
   final int t31 = l6;
   l6 = t31 != 0 ? t30 : 2;
   break L1;
  }
  final int t32 = l5 = l5 + -48;
  final int t33 = l6 = (l5 + Integer.MIN_VALUE < -2147483638) ? 1 : 0;
  l5 = t33 != 0 ? t32 : 0;
  l6 = l6 != 0 ? 0 : 2;
 }
 Words.put64(b, ((int) l0) - 58912, 1L);
 Words.put64(b, ((int) (l0 + 24L)) - 58912, l2);
 Words.put64(b, ((int) (l0 + 16L)) - 58912, l1);
 b[((int) (l0 + 9L)) - 58912] = (byte) l5;
 b[((int) (l0 + 8L)) - 58912] = (byte) l6;
}

static void f42(State m, long l0, int l1, long l2, int l3, long l4, long l5) {
 final byte[] b = m.bytes;
 long l6 = 0;
 long l7 = 0;
 long l8 = 0;
 long l9 = 0;
 long l10 = 0;
 long l11 = 0;
 long l12 = 0;
 long l13 = 0;
 long l14 = 0;
 long l15 = 0;
 long l16 = 0;
 long l17 = 0;
 long l18 = 0;
 int l19 = 0;
 int l20 = 0;
 int l21 = 0;
 int l22 = 0;
 int l23 = 0;
 m.g0 = l6 = m.g0 - 736L;
 L1: {
  if ((l6 = l6) < 16L) { break L1; }
  l19 = 0;
  m.fill((int) (l6 + 176L), 0, (int) 528L);
  l7 = l2 + 1L;
  l8 = (((l1 & 0xffffffffL) & 255L) << 5L) + 68960L;
  l9 = l6 + 144L;
  l20 = 1;
  l10 = 0L;
  l21 = 0;
  l22 = 0;
  L2: while (true) {
   Words.put64(b, ((int) l6) - 58184, 0L);
   Words.put64(b, ((int) l6) - 58192, 0L);
   Words.put64(b, ((int) l6) - 58200, 0L);
   Words.put64(b, ((int) l6) - 58208, 0L);
   L3: {
    L4: {
     L5: {
      L6: {
       L7: {
        L8: {
         L9: {
          L10: {
           L11: {
            if (l5 + Long.MIN_VALUE < -9223372036854775804L) { break L11; }
            if (Words.get32(b, ((int) ((l11 = ((((l1 = Words.get32(b, ((int) ((l4 + l5) + -4L)) - 58912) >>> 8) & 0xffffffffL) * 953497L) >>> 22L) & 1016L) + 66852L)) - 58912) != l1) { break L9; }
            l5 = l5 + -3L;
            break L10;
           }
           if (l5 != 3L) { break L9; }
           if (Words.get32(b, ((int) ((l11 = ((((l1 = (Words.get16(b, ((int) l4) - 58912) & 0xffff) | ((b[((int) l4) - 58910] & 0xff) << 16)) & 0xffffffffL) * 953497L) >>> 22L) & 1016L) + 66852L)) - 58912) != l1) { break L9; }
           l4 = l4 + 3L;
           l5 = 0L;
          }
          l23 = b[((int) (l11 + 66856L)) - 58912] & 0xff;
          l1 = b[((int) (l11 + 66857L)) - 58912] & 0xff;
          break L8;
         }
         f41(m, l6 + 704L, l4, l5);
         if ((b[((int) l6) - 58208] & 0xff) != 1) { break L7; }
         l5 = Words.get64(b, ((int) l6) - 58184);
         l4 = Words.get64(b, ((int) l6) - 58192);
         l1 = b[((int) l6) - 58199] & 0xff;
         l23 = b[((int) l6) - 58200] & 0xff;
        }
        L12: {
         L13: {
          L14: {
           switch ((int) ((l23 & 0xffffffffL) & 255L)) {
           case 1: break L13;
           case 2: break L12;
           default: break L14;
           }
          }
          l21 = 1;
          L15: {
           if (((l20 | (((l19 & 255) != 0) ? 1 : 0)) & 1) != 0) { break L15; }
           if ((l1 & 255) != 0) { break L12; }
          }
          final long t16 = (l1 & 0xffffffffL) & 255L;
          final long t17 = l10;
          final int t18 = l1 & 255;
          l10 = t18 != 0 ? t16 : t17;
          l20 = 0;
          break L3;
         }
         L19: {
          if ((l19 = l21 & (((l19 & 255) == 1) ? 1 : 0)) == 0) { break L19; }
          if ((l1 & 255) + Integer.MIN_VALUE < ((l21 = l19 != 0 ? l22 : 0) & 255) + Integer.MIN_VALUE) { break L19; }
          if ((l1 & 255) != 1) { break L12; }
          if ((l21 & 255) != 0) { break L12; }
         }
         L20: {
          L21: {
           if (!((l12 = Words.get64(b, ((int) l6) - 58224)) == 0L)) { break L21; }
           l13 = 0L;
           l14 = 0L;
           break L20;
          }
          l11 = l9 + (l12 << 5L);
          l14 = 0L;
          L22: while (true) {
           L23: {
            if ((b[((int) l11) - 58912] & 0xff) + Integer.MIN_VALUE < (l1 & 255) + Integer.MIN_VALUE) { break L23; }
            l13 = l12;
            break L20;
           }
           l15 = Words.get64(b, ((int) (l11 + 16L)) - 58912);
           l13 = b[((int) (l11 + 1L)) - 58912] & 0xffL;
           Words.put64(b, ((int) l6) - 58224, l12 = l12 + -1L);
           if (l13 + Long.MIN_VALUE > -9223372036854775770L) { break L1; }
           l16 = Words.get64(b, ((int) (l11 + 24L)) - 58912);
           l17 = 0L;
           l13 = Words.get64(b, ((int) ((l18 = l13 << 4L) + 68336L)) - 58912);
           L24: {
            L25: {
             if (((l18 = Words.get64(b, ((int) (l18 + 68344L)) - 58912)) | l14) != 0L) { break L25; }
             Core1.f3(m, l6 + 16L, l13, l18, l10, l14);
             final int t26 = ((l13 = Words.get64(b, ((int) l6) - 58896)) + Long.MIN_VALUE > (l15 ^ -1L) + Long.MIN_VALUE) ? 1 : 0;
             final int t27 = ((l14 = Words.get64(b, ((int) l6) - 58888)) + Long.MIN_VALUE > (l10 = l16 ^ -1L) + Long.MIN_VALUE) ? 1 : 0;
             final int t28 = (l14 == l10) ? 1 : 0;
             if ((t28 != 0 ? t26 : t27) == 0) { break L24; }
             l18 = 2L;
             break L5;
            }
            Core1.f3(m, l6 + 48L, l13, 0L, l10, 0L);
            Core1.f3(m, l6 + 80L, l18, 0L, l10, 0L);
            Core1.f3(m, l6 + 32L, l13, 0L, l14, 0L);
            Core1.f3(m, l6 + 64L, l18, 0L, l14, 0L);
            l18 = 2L;
            if (!((((Words.get64(b, ((int) l6) - 58872) + (((l14 = (l10 = (l13 = Words.get64(b, ((int) l6) - 58856)) + Words.get64(b, ((int) l6) - 58832)) + Words.get64(b, ((int) l6) - 58880)) + Long.MIN_VALUE < l10 + Long.MIN_VALUE) ? 1L : 0L)) | (l13 = (l10 = Words.get64(b, ((int) l6) - 58824) + ((l10 + Long.MIN_VALUE < l13 + Long.MIN_VALUE) ? 1L : 0L)) + Words.get64(b, ((int) l6) - 58848))) | (Words.get64(b, ((int) l6) - 58840) + ((l13 + Long.MIN_VALUE < l10 + Long.MIN_VALUE) ? 1L : 0L))) == 0L)) { break L5; }
            final int t29 = ((l13 = Words.get64(b, ((int) l6) - 58864)) + Long.MIN_VALUE > (l15 ^ -1L) + Long.MIN_VALUE) ? 1 : 0;
            final int t30 = (l14 + Long.MIN_VALUE > (l10 = l16 ^ -1L) + Long.MIN_VALUE) ? 1 : 0;
            final int t31 = (l14 == l10) ? 1 : 0;
            if ((t31 != 0 ? t29 : t30) != 0) { break L5; }
           }
           l14 = (l14 + l16) + (((l10 = l13 + l15) + Long.MIN_VALUE < l13 + Long.MIN_VALUE) ? 1L : 0L);
           l11 = l11 + -32L;
           l13 = 0L;
           if (l12 != 0L) { continue L22; }
           break L22;
          }
         }
         if (((l1 | l19) & 255) == 0) { break L12; }
         L32: {
          if (l13 == 0L) { break L32; }
          if ((b[((int) (((l6 + 176L) + (l13 << 5L)) + -32L)) - 58912] & 0xff) == (l1 & 255)) { break L12; }
         }
         L33: {
          if ((l19 = Words.get16(b, ((int) (l8 + (((l1 & 0xffffffffL) & 255L) << 1L))) - 58912) & 0xffff) + Integer.MIN_VALUE <= -2147483610) { break L33; }
          l17 = 0L;
          l18 = 2L;
          break L5;
         }
         Words.put64(b, ((int) (l11 = (l6 + 176L) + (l13 << 5L))) - 58910, 0L);
         b[((int) l11) - 58911] = (byte) l19;
         b[((int) l11) - 58912] = (byte) l1;
         Words.put64(b, ((int) l11) - 58904, 0L);
         Words.put64(b, ((int) l11) - 58888, l14);
         Words.put64(b, ((int) l11) - 58896, l10);
         Words.put64(b, ((int) l6) - 58224, Words.get64(b, ((int) l6) - 58224) + 1L);
         l20 = 0;
         l21 = 1;
         l10 = 0L;
         break L3;
        }
        l14 = 0L;
        l11 = 0L;
        L34: {
         if (l5 + Long.MIN_VALUE < -9223372036854775776L) { break L34; }
         Core1.f25(m, l6, l4, l5, l5);
         l14 = l5 - Words.get64(b, ((int) l6) - 58904);
         l11 = Words.get64(b, ((int) l6) - 58912);
        }
        if ((l5 - l11) + Long.MIN_VALUE < -9223372036854775800L) { break L6; }
        L35: while (true) {
         L36: {
          L37: {
           if (((l12 = Words.get64(b, ((int) (l4 + l11)) - 58912)) & 67553998437089520L) != 63050398541283552L) { break L37; }
           l14 = l14 + 3L;
           l11 = l11 + 9L;
           break L36;
          }
          if ((l12 & -9187201950435737472L) != 0L) { break L6; }
          l14 = l14 + 8L;
          l11 = l11 + 8L;
         }
         if ((l5 - l11) + Long.MIN_VALUE <= -9223372036854775801L) { break L6; }
         continue L35;
        }
       }
       L38: {
        L39: {
         L40: {
          L41: {
           if ((l3 + -2048) + Integer.MIN_VALUE > -2147420161) { break L41; }
           if (Words.get32(b, State.far((int) (l11 = ((((l1 = (((l3 >>> 12) | ((l3 << 2) & 16128)) | ((l3 << 16) & 4128768)) | 8421600) & 0xffffffffL) * 953497L) >>> 22L) & 1016L), 66852)) != l1) { break L38; }
           l1 = b[((int) (l11 + 66857L)) - 58912] & 0xff;
           L42: {
            switch ((int) (b[((int) (l11 + 66856L)) - 58912] & 0xffL)) {
            case 1: break L42;
            case 2: break L38;
            default: break L40;
            }
           }
           l19 = 10;
           if ((l1 & 255) != 1) { break L38; }
           break L39;
          }
          if ((l1 = l3 + -48) + Integer.MIN_VALUE >= -2147483638) { break L38; }
         }
         l19 = ((l23 = l21 & (((l19 & 255) == 0) ? 1 : 0)) != 0) ? 0 : l1;
         if (l23 != 1) { break L39; }
         if ((l1 & 255) != 0) { break L38; }
        }
        l14 = ((l16 = (l11 = (l19 & 0xffffffffL) & 255L) + l10) + Long.MIN_VALUE < l11 + Long.MIN_VALUE) ? 1L : 0L;
        L43: {
         L44: {
          if ((l11 = Words.get64(b, ((int) l6) - 58224)) == 0L) { break L44; }
          l10 = l11 + -1L;
          l11 = ((l11 << 5L) + (l6 + 176L)) + -31L;
          L45: while (true) {
           l13 = Words.get64(b, ((int) (l11 + 15L)) - 58912);
           l12 = b[((int) l11) - 58912] & 0xffL;
           Words.put64(b, ((int) l6) - 58224, l10);
           if (l12 + Long.MIN_VALUE > -9223372036854775770L) { break L1; }
           l15 = Words.get64(b, ((int) (l11 + 23L)) - 58912);
           l12 = Words.get64(b, ((int) ((l18 = l12 << 4L) + 68336L)) - 58912);
           L46: {
            L47: {
             if (((l18 = Words.get64(b, ((int) (l18 + 68344L)) - 58912)) | l14) != 0L) { break L47; }
             Core1.f3(m, l6 + 96L, l12, l18, l16, l14);
             final int t48 = ((l12 = Words.get64(b, ((int) l6) - 58816)) + Long.MIN_VALUE > (l13 ^ -1L) + Long.MIN_VALUE) ? 1 : 0;
             final int t49 = ((l14 = Words.get64(b, ((int) l6) - 58808)) + Long.MIN_VALUE > (l16 = l15 ^ -1L) + Long.MIN_VALUE) ? 1 : 0;
             final int t50 = (l14 == l16) ? 1 : 0;
             if ((t50 != 0 ? t48 : t49) == 0) { break L46; }
             l16 = 0L;
             l18 = 1L;
             l5 = 2L;
             l14 = 0L;
             break L43;
            }
            Core1.f3(m, l6 + 128L, l12, 0L, l16, 0L);
            Core1.f3(m, l6 + 160L, l18, 0L, l16, 0L);
            Core1.f3(m, l6 + 112L, l12, 0L, l14, 0L);
            Core1.f3(m, l6 + 144L, l18, 0L, l14, 0L);
            l18 = 1L;
            l5 = 2L;
            L51: {
             if ((((Words.get64(b, ((int) l6) - 58792) + (((l14 = (l12 = (l16 = Words.get64(b, ((int) l6) - 58776)) + Words.get64(b, ((int) l6) - 58752)) + Words.get64(b, ((int) l6) - 58800)) + Long.MIN_VALUE < l12 + Long.MIN_VALUE) ? 1L : 0L)) | (l16 = (l12 = Words.get64(b, ((int) l6) - 58744) + ((l12 + Long.MIN_VALUE < l16 + Long.MIN_VALUE) ? 1L : 0L)) + Words.get64(b, ((int) l6) - 58768))) | (Words.get64(b, ((int) l6) - 58760) + ((l16 + Long.MIN_VALUE < l12 + Long.MIN_VALUE) ? 1L : 0L))) == 0L) { break L51; }
             l16 = 0L;
             l14 = 0L;
             break L43;
            }
            final int t52 = ((l12 = Words.get64(b, ((int) l6) - 58784)) + Long.MIN_VALUE > (l13 ^ -1L) + Long.MIN_VALUE) ? 1 : 0;
            final int t53 = (l14 + Long.MIN_VALUE > (l16 = l15 ^ -1L) + Long.MIN_VALUE) ? 1 : 0;
            final int t54 = (l14 == l16) ? 1 : 0;
            if ((t54 != 0 ? t52 : t53) == 0) { break L46; }
            l14 = 0L;
            l16 = 0L;
            break L43;
           }
           l14 = (l14 + l15) + (((l16 = l12 + l13) + Long.MIN_VALUE < l12 + Long.MIN_VALUE) ? 1L : 0L);
           l11 = l11 + -32L;
           if ((l10 = l10 + -1L) != -1L) { continue L45; }
           break L45;
          }
         }
         l5 = 0L;
         l18 = 0L;
        }
        Words.put64(b, ((int) l0) - 58912, l18);
        Words.put64(b, ((int) (l0 + 24L)) - 58912, l14);
        Words.put64(b, ((int) (l0 + 16L)) - 58912, l16);
        Words.put64(b, ((int) (l0 + 8L)) - 58912, l5);
        break L4;
       }
       Words.put64(b, ((int) l0) - 58912, 1L);
       Words.put64(b, ((int) (l0 + 24L)) - 58912, 0L);
       Words.put64(b, ((int) (l0 + 16L)) - 58912, l2);
       Words.put64(b, ((int) (l0 + 8L)) - 58912, 1L);
       break L4;
      }
      L55: {
       if (l11 + Long.MIN_VALUE >= l5 + Long.MIN_VALUE) { break L55; }
       L56: while (true) {
        l14 = l14 + 1L;
        if ((l11 = Words.get64(b, ((int) (((((b[((int) (l4 + l11)) - 58912] & 0xff) >>> 1) & 0xffffffffL) & 120L) + 66680L)) - 58912) + l11) + Long.MIN_VALUE < l5 + Long.MIN_VALUE) { continue L56; }
        break L56;
       }
      }
      l17 = l7 + l14;
      l18 = 1L;
     }
     Words.put64(b, ((int) l0) - 58912, 1L);
     Words.put64(b, ((int) (l0 + 24L)) - 58912, 0L);
     Words.put64(b, ((int) (l0 + 16L)) - 58912, l17);
     Words.put64(b, ((int) (l0 + 8L)) - 58912, l18);
    }
    m.g0 = l6 + 736L;
    return;
   }
   l19 = l23;
   l22 = l1;
   continue L2;
  }
 }
 throw State.trap();
}

static void f43(State m, long l0, int l1, long l2, long l3, int l4, int l5) {
 final byte[] b = m.bytes;
 long l6 = 0;
 long l7 = 0;
 long l8 = 0;
 long l9 = 0;
 long l10 = 0;
 long l11 = 0;
 long l12 = 0;
 long l13 = 0;
 long l14 = 0;
 long l15 = 0;
 long l16 = 0;
 long l17 = 0;
 long l18 = 0;
 m.g0 = l6 = m.g0 - 48L;
 L1: {
  L2: {
   L3: {
    L4: {
     if ((l7 = l6) < 16L) { break L4; }
     if ((l6 = Words.get16(b, ((int) (((((l1 & 0xffffffffL) & 255L) << 5L) + (((l4 & 0xffffffffL) & 255L) << 1L)) + 68960L)) - 58912) & 0xffffL) + Long.MIN_VALUE > -9223372036854775770L) { break L4; }
     final long t5 = l8 = Words.get64(b, ((int) ((l6 = l6 << 4L) + 68344L)) - 58912);
     final int t6 = ((l8 | (l9 = Words.get64(b, ((int) (l6 + 68336L)) - 58912))) == 0L) ? 1 : 0;
     final long t7 = (long) Long.numberOfLeadingZeros(l8);
     final long t8 = ((long) Long.numberOfLeadingZeros(l9)) + 64L;
     final int t9 = (l8 != 0L) ? 1 : 0;
     final int t10 = ((l10 = 124L - (l6 = t9 != 0 ? t7 : t8)) + Long.MIN_VALUE > -9223372036854775681L) ? 1 : 0;
     final int t11 = ((l11 = 0L - ((l6 + Long.MIN_VALUE > -9223372036854775684L) ? 1L : 0L)) != 0L) ? 1 : 0;
     final int t12 = (l11 == 0L) ? 1 : 0;
     l12 = ((l4 = t6 | (t12 != 0 ? t10 : t11)) != 0) ? 0L : t5;
     l6 = l4 != 0 ? 0L : l9;
     if (l4 != 0) { break L1; }
     if (((l10 ^ 127L) | l11) == 0L) { break L1; }
     Core1.f4(m, l7 + 32L, l9, l8, 127 - ((int) l10));
     l12 = Words.get64(b, ((int) l7) - 58872);
     l6 = Words.get64(b, ((int) l7) - 58880);
     if (((l10 = l10 + 1L) | (l13 = l11 + ((l10 == 0L) ? 1L : 0L))) == 0L) { break L3; }
     Core1.f5(m, l7 + 16L, l9, l8, (int) l10);
     l14 = 10L + -1L;
     l15 = 0L - ((10L == 0L) ? 1L : 0L);
     l9 = Words.get64(b, ((int) l7) - 58888);
     l8 = Words.get64(b, ((int) l7) - 58896);
     l11 = 0L;
     L13: while (true) {
      l16 = l11;
      l11 = (l8 = ((l15 - (l17 = (l9 << 1L) | (l8 >>> 63L))) - ((l14 + Long.MIN_VALUE < (l9 = (l8 << 1L) | (l12 >>> 63L)) + Long.MIN_VALUE) ? 1L : 0L)) >> 63L) & 1L;
      l8 = l9 - (l18 = l8 & 10L);
      l9 = l17 - ((l9 + Long.MIN_VALUE < l18 + Long.MIN_VALUE) ? 1L : 0L);
      l12 = 0L | ((l12 << 1L) | (l6 >>> 63L));
      l4 = (l10 == 0L) ? 1 : 0;
      l6 = l16 | (l6 << 1L);
      l10 = l16 = l10 + -1L;
      if (!((l16 | (l13 = l13 - (l4 & 0xffffffffL))) == 0L)) { continue L13; }
      break L2;
     }
    }
    throw State.trap();
   }
   l11 = 0L;
  }
  l12 = (l12 << 1L) | (l6 >>> 63L);
  l6 = l11 | (l6 << 1L);
 }
 Core1.f3(m, l7, l6, l12, (l5 & 0xffffffffL) & 255L, 0L);
 Words.put64(b, ((int) l0) - 58904, 0L);
 final int t14 = (int) (l0 + 16L);
 final long t15 = l10 = (l6 = Words.get64(b, ((int) l7) - 58912)) + l2;
 final int t16 = (l2 + Long.MIN_VALUE <= (l6 ^ -1L) + Long.MIN_VALUE) ? 1 : 0;
 final int t17 = (l3 + Long.MIN_VALUE <= (l8 = (l12 = Words.get64(b, ((int) l7) - 58904)) ^ -1L) + Long.MIN_VALUE) ? 1 : 0;
 final int t18 = (l3 == l8) ? 1 : 0;
 Words.put64(b, t14 - 58912, ((l4 = t18 != 0 ? t16 : t17) != 0) ? t15 : 0L);
 Words.put64(b, ((int) l0) - 58912, l4 & 0xffffffffL);
 final int t19 = (int) (l0 + 24L);
 final long t20 = (l12 + l3) + ((l10 + Long.MIN_VALUE < l6 + Long.MIN_VALUE) ? 1L : 0L);
 final int t21 = l4;
 Words.put64(b, t19 - 58912, t21 != 0 ? t20 : 0L);
 m.g0 = l7 + 48L;
}

static long f44(State m, long l0, long l1) {
 final byte[] b = m.bytes;
 long l2 = 0;
 long l3 = 0;
 long l4 = 0;
 long l5 = 0;
 m.g0 = l2 = m.g0 - 16L;
 L1: {
  L2: {
   if ((l3 = l2) < 16L) { break L2; }
   l4 = 0L;
   l2 = 0L;
   L3: {
    if (l1 + Long.MIN_VALUE < -9223372036854775776L) { break L3; }
    Core1.f25(m, l3, l0, l1, l1);
    l4 = l1 - Words.get64(b, ((int) l3) - 58904);
    l2 = Words.get64(b, ((int) l3) - 58912);
   }
   if ((l1 - l2) + Long.MIN_VALUE < -9223372036854775800L) { break L1; }
   L4: while (true) {
    L5: {
     L6: {
      if (((l5 = Words.get64(b, ((int) (l0 + l2)) - 58912)) & 67553998437089520L) != 63050398541283552L) { break L6; }
      l4 = l4 + 3L;
      l2 = l2 + 9L;
      break L5;
     }
     if ((l5 & -9187201950435737472L) != 0L) { break L1; }
     l4 = l4 + 8L;
     l2 = l2 + 8L;
    }
    if ((l1 - l2) + Long.MIN_VALUE <= -9223372036854775801L) { break L1; }
    continue L4;
   }
  }
  throw State.trap();
 }
 L7: {
  if (l2 + Long.MIN_VALUE >= l1 + Long.MIN_VALUE) { break L7; }
  L8: while (true) {
   l4 = l4 + 1L;
   if ((l2 = Words.get64(b, ((int) (((((b[((int) (l0 + l2)) - 58912] & 0xff) >>> 1) & 0xffffffffL) & 120L) + 66680L)) - 58912) + l2) + Long.MIN_VALUE < l1 + Long.MIN_VALUE) { continue L8; }
   break L8;
  }
 }
 m.g0 = l3 + 16L;
 return l4;
}

static void f45(State m, long l0, long l1, long l2, long l3) {
 final byte[] b = m.bytes;
 long l4 = 0;
 long l5 = 0;
 long l6 = 0;
 long l7 = 0;
 long l8 = 0;
 long l9 = 0;
 long l10 = 0;
 long l11 = 0;
 long l12 = 0;
 int l13 = 0;
 int l14 = 0;
 int l15 = 0;
 int l16 = 0;
 int l17 = 0;
 m.g0 = l4 = m.g0 - 288L;
 L1: {
  L2: {
   L3: {
    if ((l5 = l4) < 16L) { break L3; }
    b[((int) l5) - 58646] = (byte) 0;
    Words.put16(b, ((int) l5) - 58648, (short) 0);
    if (l3 == 0L) { break L2; }
    l4 = 0L;
    l6 = 0L - l3;
    L4: {
     L5: while (true) {
      if ((b[((int) (l7 = l2 + l4)) - 58912] & 0xff) == 32) { break L4; }
      if (!((l6 + (l4 = l4 + 1L)) == 0L)) { continue L5; }
      break L2;
     }
    }
    if ((l8 = l4 - l3) == -1L) { break L2; }
    l9 = l7 + 1L;
    l6 = 0L;
    L6: {
     L7: while (true) {
      if ((b[((int) ((l7 + l6) + 1L)) - 58912] & 0xff) == 32) { break L6; }
      l10 = l8 + l6;
      l6 = l6 + 1L;
      if (l10 == -2L) { break L2; }
      continue L7;
     }
    }
    if (((l7 = l4 + l6) - l3) == -2L) { break L2; }
    l11 = (l7 + l2) + 2L;
    l8 = l3 + -2L;
    l10 = 0L;
    L8: {
     L9: while (true) {
      if ((b[((int) ((l12 = l2 + l7) + 2L)) - 58912] & 0xff) == 32) { break L8; }
      l10 = l10 + 1L;
      if (l8 == (l7 = l7 + 1L)) { break L2; }
      continue L9;
     }
    }
    if ((l3 + -3L) == l7) { break L2; }
    l3 = l3 - l7;
    l8 = 0L;
    l7 = l12 = l12 + 3L;
    L10: {
     L11: while (true) {
      if ((b[((int) l7) - 58912] & 0xff) == 32) { break L10; }
      l8 = l8 + 1L;
      l7 = l7 + 1L;
      if ((l3 = l3 + -1L) == 3L) { break L2; }
      continue L11;
     }
    }
    Core1.f37(m, l5 + 264L, l9, l6);
    if ((b[((int) l5) - 58648] & 0xff) != 1) { break L2; }
    l13 = b[((int) l5) - 58647] & 0xff;
    l14 = b[((int) l5) - 58646] & 0xff;
    f46(m, l5 + 8L, l11, l10);
    if (((b[((int) l5) - 58904] & 0xff) & 1) == 0) { break L2; }
    l15 = b[((int) l5) - 58903] & 0xff;
    f47(m, l5, l12, l8);
    if (((b[((int) l5) - 58912] & 0xff) & 1) == 0) { break L2; }
    l6 = l7 + 1L;
    l16 = b[((int) l5) - 58911] & 0xff;
    l10 = 0L;
    Words.put64(b, ((int) l5) - 58872, 0L);
    Words.put64(b, ((int) l5) - 58880, 0L);
    Words.put64(b, ((int) l5) - 58888, 0L);
    Words.put64(b, ((int) l5) - 58896, 0L);
    l17 = 0;
    L12: {
     if (l3 == 4L) { break L12; }
     L13: {
      if ((b[((int) l6) - 58912] & 0xff) == 45) { break L13; }
      l10 = l3 + -4L;
      break L12;
     }
     l10 = l3 + -5L;
     l6 = l7 + 2L;
     l17 = 1;
    }
    f48(m, l5 + 16L, l6, l10);
    if ((b[((int) l5) - 58896] & 0xff) != 1) { break L2; }
    if (l4 == 0L) { break L2; }
    l6 = Words.get64(b, ((int) l5) - 58872);
    l7 = Words.get64(b, ((int) l5) - 58880);
    L14: {
     L15: {
      L16: {
       switch ((b[((int) l2) - 58912] & 0xff) + -105) {
       case 0: break L15;
       case 12: break L16;
       default: break L2;
       }
      }
      L17: {
       if ((l10 = l4 + -1L) + Long.MIN_VALUE > -9223372036854775807L) { break L17; }
       L18: {
        switch ((int) l10) {
        case 1: break L18;
        default: break L2;
        }
       }
       if ((b[((int) (l2 + 1L)) - 58912] & 0xff) != 56) { break L2; }
       l4 = 0L;
       break L14;
      }
      L19: {
       if (l4 + Long.MIN_VALUE > -9223372036854775805L) { break L19; }
       L20: {
        L21: {
         L22: {
          switch ((b[((int) (l2 + 1L)) - 58912] & 0xff) + -49) {
          case 0: break L22;
          case 2: break L21;
          case 5: break L20;
          default: break L2;
          }
         }
         if ((b[((int) (l2 + 2L)) - 58912] & 0xff) != 54) { break L2; }
         l4 = 32L;
         break L14;
        }
        if ((b[((int) (l2 + 2L)) - 58912] & 0xff) != 50) { break L2; }
        l4 = 64L;
        break L14;
       }
       if ((b[((int) (l2 + 2L)) - 58912] & 0xff) != 52) { break L2; }
       l4 = 96L;
       break L14;
      }
      L23: {
       if (l4 != 4L) { break L23; }
       if ((b[((int) (l2 + 1L)) - 58912] & 0xff) != 49) { break L2; }
       if ((b[((int) (l2 + 2L)) - 58912] & 0xff) != 50) { break L2; }
       if ((b[((int) (l2 + 3L)) - 58912] & 0xff) != 56) { break L2; }
       l4 = 128L;
       break L14;
      }
      if (l4 + Long.MIN_VALUE > -9223372036854775803L) { break L2; }
      if ((b[((int) (l2 + 1L)) - 58912] & 0xff) != 115) { break L2; }
      if ((b[((int) (l2 + 2L)) - 58912] & 0xff) != 105) { break L2; }
      if ((b[((int) (l2 + 3L)) - 58912] & 0xff) != 122) { break L2; }
      if ((b[((int) (l2 + 4L)) - 58912] & 0xff) != 101) { break L2; }
      l4 = 96L;
      break L14;
     }
     L24: {
      if ((l10 = l4 + -1L) + Long.MIN_VALUE > -9223372036854775807L) { break L24; }
      L25: {
       switch ((int) l10) {
       case 1: break L25;
       default: break L2;
       }
      }
      if ((b[((int) (l2 + 1L)) - 58912] & 0xff) != 56) { break L2; }
      l4 = 160L;
      break L14;
     }
     L26: {
      L27: {
       if (l4 + Long.MIN_VALUE > -9223372036854775805L) { break L27; }
       L28: {
        L29: {
         L30: {
          switch ((b[((int) (l2 + 1L)) - 58912] & 0xff) + -49) {
          case 0: break L30;
          case 2: break L29;
          case 5: break L28;
          default: break L2;
          }
         }
         if ((b[((int) (l2 + 2L)) - 58912] & 0xff) != 54) { break L2; }
         l4 = 192L;
         break L14;
        }
        if ((b[((int) (l2 + 2L)) - 58912] & 0xff) != 50) { break L2; }
        l4 = 224L;
        break L14;
       }
       if ((b[((int) (l2 + 2L)) - 58912] & 0xff) != 52) { break L2; }
       break L26;
      }
      L31: {
       if (l4 != 4L) { break L31; }
       if ((b[((int) (l2 + 1L)) - 58912] & 0xff) != 49) { break L2; }
       if ((b[((int) (l2 + 2L)) - 58912] & 0xff) != 50) { break L2; }
       if ((b[((int) (l2 + 3L)) - 58912] & 0xff) != 56) { break L2; }
       l4 = 288L;
       break L14;
      }
      if (l4 + Long.MIN_VALUE > -9223372036854775803L) { break L2; }
      if ((b[((int) (l2 + 1L)) - 58912] & 0xff) != 115) { break L2; }
      if ((b[((int) (l2 + 2L)) - 58912] & 0xff) != 105) { break L2; }
      if ((b[((int) (l2 + 3L)) - 58912] & 0xff) != 122) { break L2; }
      if ((b[((int) (l2 + 4L)) - 58912] & 0xff) != 101) { break L2; }
     }
     l4 = 256L;
    }
    final int t32 = (l7 + Long.MIN_VALUE > Words.get64(b, ((int) (l4 = l4 + (l17 != 0 ? 67904L : 67888L))) - 58912) + Long.MIN_VALUE) ? 1 : 0;
    final int t33 = (l6 + Long.MIN_VALUE > (l4 = Words.get64(b, ((int) l4) - 58904)) + Long.MIN_VALUE) ? 1 : 0;
    final int t34 = (l6 == l4) ? 1 : 0;
    if ((t34 != 0 ? t32 : t33) != 0) { break L2; }
    L35: {
     if (l17 == 0) { break L35; }
     L36: {
      final int t37 = l17 = (l7 != 0L) ? 1 : 0;
      final int t38 = (l6 + Long.MIN_VALUE > 0L) ? 1 : 0;
      final int t39 = (l6 == -9223372036854775808L) ? 1 : 0;
      if ((t39 != 0 ? t37 : t38) == 0) { break L36; }
      l4 = 66814L;
      l7 = 8L;
      break L1;
     }
     l12 = 0L - (l6 + (l17 & 0xffffffffL));
     m.fill((int) (l5 + 16L), 0, (int) 235L);
     L40: {
      L41: {
       L42: {
        if ((l13 & 255) != 0) { break L42; }
        Words.put16(b, ((int) l5) - 58632, (short) 0);
        l2 = 0L;
        Words.put64(b, ((int) l5) - 58640, 0L);
        Words.put64(b, ((int) l5) - 58648, 0L);
        l17 = ((l16 & 255) == 1) ? 1 : 0;
        L43: {
         if (l6 == 0L) { break L43; }
         l8 = (l7 >>> 42L) | (l6 << 22L);
         l6 = l6 >>> 4L;
         l4 = l5 + 264L;
         l2 = 0L;
         L44: while (true) {
          Words.put16(b, ((int) (l4 + 6L)) - 58912, (short) Long.divideUnsigned(l7 = (((l8 = (((l6 = ((l6 - ((l10 = Long.divideUnsigned(l6, 152587890625L)) * 152587890625L)) << 26L) | (l8 & 67108863L)) - ((l6 = Long.divideUnsigned(l6, 152587890625L)) * 152587890625L)) << 26L) | ((l7 >>> 16L) & 67108863L)) - ((l8 = Long.divideUnsigned(l8, 152587890625L)) * 152587890625L)) << 16L) | (l7 & 65535L), 1000000000000L));
          Words.put16(b, ((int) (l4 + 4L)) - 58912, (short) ((int) ((((int) (l3 = Long.divideUnsigned(l7, 100000000L))) & 0xffffffffL) % 10000L)));
          Words.put16(b, ((int) (l4 + 2L)) - 58912, (short) (l14 = (int) (((l13 = (int) (l7 - (l3 * 100000000L))) & 0xffffffffL) / 10000L)));
          Words.put16(b, ((int) l4) - 58912, (short) (l13 - (l14 * 10000)));
          l8 = ((l7 = (l3 = l10 << 52L) + (l8 + (l6 << 26L))) >>> 42L) | ((l10 = (l10 >>> 12L) + ((l7 + Long.MIN_VALUE < l3 + Long.MIN_VALUE) ? 1L : 0L)) << 22L);
          l6 = l10 >>> 4L;
          l4 = l4 + 8L;
          l2 = l2 + 4L;
          if (l10 != 0L) { continue L44; }
          break L44;
         }
        }
        l10 = l17 != 0 ? 69244L : 69460L;
        l8 = l17 != 0 ? 69676L : 69892L;
        l13 = l15 & 255;
        L45: {
         if (l7 + Long.MIN_VALUE < -9223372036854765808L) { break L45; }
         l4 = (l5 + 264L) + (l2 << 1L);
         L46: while (true) {
          Words.put16(b, ((int) l4) - 58912, (short) ((l6 = l7) - ((l7 = Long.divideUnsigned(l6, 10000L)) * 10000L)));
          l4 = l4 + 2L;
          l2 = l2 + 1L;
          if (l6 + Long.MIN_VALUE > -9223372036754775809L) { continue L46; }
          break L46;
         }
        }
        l4 = l13 != 0 ? l8 : l10;
        l3 = ((l7 + Long.MIN_VALUE > -9223372036854775799L) ? 2L : 1L) + ((l7 + Long.MIN_VALUE > -9223372036854775709L) ? 1L : 0L);
        l9 = (l7 + Long.MIN_VALUE > -9223372036854774809L) ? 1L : 0L;
        l6 = 235L;
        L47: {
         if (l2 == 0L) { break L47; }
         l8 = l5 + 264L;
         L48: while (true) {
          Words.put32(b, ((int) ((l10 = (l5 + 16L) + l6) + -4L)) - 58912, Words.get32(b, ((int) (l4 + (((((l15 = (l13 = Words.get16(b, ((int) l8) - 58912) & 0xffff) - ((l14 = (int) ((l13 & 0xffffffffL) / 100L)) * 100)) - ((l15 = (int) (((l15 & 255) & 0xffffffffL) / 10L)) * 10)) << 2) & 0xffffffffL) & 252L))) - 58912));
          Words.put32(b, ((int) (l10 + -7L)) - 58912, Words.get32(b, ((int) (l4 + ((l15 << 2) & 0xffffffffL))) - 58912));
          Words.put32(b, ((int) (l10 + -10L)) - 58912, Words.get32(b, ((int) (l4 + ((((int) ((l14 & 0xffffffffL) % 10L)) << 2) & 0xffffffffL))) - 58912));
          Words.put32(b, ((int) (l10 + -13L)) - 58912, Words.get32(b, ((int) (l4 + ((((int) ((l13 & 0xffffffffL) / 1000L)) << 2) & 0xffffffffL))) - 58912));
          l8 = l8 + 2L;
          l6 = l6 + -12L;
          if ((l2 = l2 + -1L) != 0L) { continue L48; }
          break L48;
         }
        }
        l2 = l3 + l9;
        l13 = (int) l7;
        l7 = l5 + 12L;
        L49: while (true) {
         Words.put32(b, ((int) (l7 + l6)) - 58912, Words.get32(b, ((int) (l4 + ((((l13 - ((l14 = (int) (((l13 & 65535) & 0xffffffffL) / 10L)) * 10)) << 2) & 0xffffffffL) & 65532L))) - 58912));
         l6 = l6 + -3L;
         l13 = l14;
         if ((l2 = l2 + -1L) != 0L) { continue L49; }
         break L49;
        }
        if (l12 > -1L) { break L41; }
        Words.put32(b, ((int) (((l5 + 16L) + l6) + -4L)) - 58912, Words.get32(b, ((int) (l4 + 104L)) - 58912));
        l6 = l6 + -3L;
        break L41;
       }
       L50: {
        if ((l14 & 255) != 0) { break L50; }
        final int t51 = (l7 + Long.MIN_VALUE > -9213372036854775809L) ? 1 : 0;
        final int t52 = (l6 != 0L) ? 1 : 0;
        final int t53 = (l6 == 0L) ? 1 : 0;
        if ((t53 != 0 ? t51 : t52) != 0) { break L40; }
       }
       Words.put32(b, ((int) l5) - 58646, 0);
       Words.put16(b, ((int) l5) - 58642, (short) 0);
       b[((int) l5) - 58647] = (byte) l16;
       b[((int) l5) - 58648] = (byte) l15;
       final int t54 = (int) l5;
       final long t55 = ((l13 = ((l16 & 255) == 1) ? 1 : 0) != 0) ? 69676L : 69892L;
       final long t56 = l13 != 0 ? 69244L : 69460L;
       final int t57 = l15 & 255;
       Words.put64(b, t54 - 58640, t57 != 0 ? t55 : t56);
       l6 = f49(m, l5 + 16L, l5 + 264L, l14, (int) (l12 >>> 63L), l7, l6);
      }
      l7 = l1 + l6;
      L58: {
       if ((l4 = 235L - l6) == 0L) { break L58; }
       m.copy((int) (l7 + 21L), (int) ((l5 + 16L) + l6), (int) l4);
      }
      L59: {
       L60: {
        if (((l4 = l7 + 18L) - 69092L) + Long.MIN_VALUE > -9223372036854775806L) { break L60; }
        b[((int) (l7 + 20L)) - 58912] = (byte) 32;
        Words.put16(b, ((int) (l7 + 18L)) - 58912, (short) 27503);
        break L59;
       }
       b[((int) l4) - 58910] = (byte) (b[State.far((int) 0L, 69094)] & 0xff);
       Words.put16(b, ((int) l4) - 58912, (short) (Words.get16(b, State.far((int) 0L, 69092)) & 0xffff));
      }
      l7 = 238L - l6;
      break L1;
     }
     l4 = (l12 > -1L) ? 69131L : 69154L;
     l7 = 23L;
     break L1;
    }
    m.fill((int) (l5 + 16L), 0, (int) 235L);
    L61: {
     L62: {
      if ((l13 & 255) != 0) { break L62; }
      Words.put16(b, ((int) l5) - 58632, (short) 0);
      l2 = 0L;
      Words.put64(b, ((int) l5) - 58640, 0L);
      Words.put64(b, ((int) l5) - 58648, 0L);
      l17 = ((l16 & 255) == 1) ? 1 : 0;
      L63: {
       if (l6 == 0L) { break L63; }
       l8 = (l7 >>> 42L) | (l6 << 22L);
       l6 = l6 >>> 4L;
       l4 = l5 + 264L;
       l2 = 0L;
       L64: while (true) {
        Words.put16(b, ((int) (l4 + 6L)) - 58912, (short) Long.divideUnsigned(l7 = (((l8 = (((l6 = ((l6 - ((l10 = Long.divideUnsigned(l6, 152587890625L)) * 152587890625L)) << 26L) | (l8 & 67108863L)) - ((l6 = Long.divideUnsigned(l6, 152587890625L)) * 152587890625L)) << 26L) | ((l7 >>> 16L) & 67108863L)) - ((l8 = Long.divideUnsigned(l8, 152587890625L)) * 152587890625L)) << 16L) | (l7 & 65535L), 1000000000000L));
        Words.put16(b, ((int) (l4 + 4L)) - 58912, (short) ((int) ((((int) (l3 = Long.divideUnsigned(l7, 100000000L))) & 0xffffffffL) % 10000L)));
        Words.put16(b, ((int) (l4 + 2L)) - 58912, (short) (l14 = (int) (((l13 = (int) (l7 - (l3 * 100000000L))) & 0xffffffffL) / 10000L)));
        Words.put16(b, ((int) l4) - 58912, (short) (l13 - (l14 * 10000)));
        l8 = ((l7 = (l3 = l10 << 52L) + (l8 + (l6 << 26L))) >>> 42L) | ((l10 = (l10 >>> 12L) + ((l7 + Long.MIN_VALUE < l3 + Long.MIN_VALUE) ? 1L : 0L)) << 22L);
        l6 = l10 >>> 4L;
        l4 = l4 + 8L;
        l2 = l2 + 4L;
        if (l10 != 0L) { continue L64; }
        break L64;
       }
      }
      l10 = l17 != 0 ? 69244L : 69460L;
      l8 = l17 != 0 ? 69676L : 69892L;
      l13 = l15 & 255;
      L65: {
       if (l7 + Long.MIN_VALUE < -9223372036854765808L) { break L65; }
       l4 = (l5 + 264L) + (l2 << 1L);
       L66: while (true) {
        Words.put16(b, ((int) l4) - 58912, (short) ((l6 = l7) - ((l7 = Long.divideUnsigned(l6, 10000L)) * 10000L)));
        l4 = l4 + 2L;
        l2 = l2 + 1L;
        if (l6 + Long.MIN_VALUE > -9223372036754775809L) { continue L66; }
        break L66;
       }
      }
      l4 = l13 != 0 ? l8 : l10;
      l3 = ((l7 + Long.MIN_VALUE > -9223372036854775799L) ? 2L : 1L) + ((l7 + Long.MIN_VALUE > -9223372036854775709L) ? 1L : 0L);
      l12 = (l7 + Long.MIN_VALUE > -9223372036854774809L) ? 1L : 0L;
      l6 = 235L;
      L67: {
       if (l2 == 0L) { break L67; }
       l8 = l5 + 264L;
       L68: while (true) {
        Words.put32(b, ((int) ((l10 = (l5 + 16L) + l6) + -4L)) - 58912, Words.get32(b, ((int) (l4 + (((((l15 = (l13 = Words.get16(b, ((int) l8) - 58912) & 0xffff) - ((l14 = (int) ((l13 & 0xffffffffL) / 100L)) * 100)) - ((l15 = (int) (((l15 & 255) & 0xffffffffL) / 10L)) * 10)) << 2) & 0xffffffffL) & 252L))) - 58912));
        Words.put32(b, ((int) (l10 + -7L)) - 58912, Words.get32(b, ((int) (l4 + ((l15 << 2) & 0xffffffffL))) - 58912));
        Words.put32(b, ((int) (l10 + -10L)) - 58912, Words.get32(b, ((int) (l4 + ((((int) ((l14 & 0xffffffffL) % 10L)) << 2) & 0xffffffffL))) - 58912));
        Words.put32(b, ((int) (l10 + -13L)) - 58912, Words.get32(b, ((int) (l4 + ((((int) ((l13 & 0xffffffffL) / 1000L)) << 2) & 0xffffffffL))) - 58912));
        l8 = l8 + 2L;
        l6 = l6 + -12L;
        if ((l2 = l2 + -1L) != 0L) { continue L68; }
        break L68;
       }
      }
      l2 = l3 + l12;
      l13 = (int) l7;
      l7 = l5 + 12L;
      L69: while (true) {
       Words.put32(b, ((int) (l7 + l6)) - 58912, Words.get32(b, ((int) (l4 + ((((l13 - ((l14 = (int) (((l13 & 65535) & 0xffffffffL) / 10L)) * 10)) << 2) & 0xffffffffL) & 65532L))) - 58912));
       l6 = l6 + -3L;
       l13 = l14;
       if ((l2 = l2 + -1L) != 0L) { continue L69; }
       break L61;
      }
     }
     L70: {
      if ((l14 & 255) != 0) { break L70; }
      final int t71 = (l7 + Long.MIN_VALUE > -9213372036854775809L) ? 1 : 0;
      final int t72 = (l6 != 0L) ? 1 : 0;
      final int t73 = (l6 == 0L) ? 1 : 0;
      if ((t73 != 0 ? t71 : t72) == 0) { break L70; }
      l4 = 69131L;
      l7 = 23L;
      break L1;
     }
     Words.put32(b, ((int) l5) - 58646, 0);
     Words.put16(b, ((int) l5) - 58642, (short) 0);
     b[((int) l5) - 58647] = (byte) l16;
     b[((int) l5) - 58648] = (byte) l15;
     final int t74 = (int) l5;
     final long t75 = ((l13 = ((l16 & 255) == 1) ? 1 : 0) != 0) ? 69676L : 69892L;
     final long t76 = l13 != 0 ? 69244L : 69460L;
     final int t77 = l15 & 255;
     Words.put64(b, t74 - 58640, t77 != 0 ? t75 : t76);
     l6 = f49(m, l5 + 16L, l5 + 264L, l14, 0, l7, l6);
    }
    l7 = l1 + l6;
    L78: {
     if ((l4 = 235L - l6) == 0L) { break L78; }
     m.copy((int) (l7 + 21L), (int) ((l5 + 16L) + l6), (int) l4);
    }
    L79: {
     L80: {
      if (((l4 = l7 + 18L) - 69092L) + Long.MIN_VALUE > -9223372036854775806L) { break L80; }
      b[((int) (l7 + 20L)) - 58912] = (byte) 32;
      Words.put16(b, ((int) (l7 + 18L)) - 58912, (short) 27503);
      break L79;
     }
     b[((int) l4) - 58910] = (byte) (b[State.far((int) 0L, 69094)] & 0xff);
     Words.put16(b, ((int) l4) - 58912, (short) (Words.get16(b, State.far((int) 0L, 69092)) & 0xffff));
    }
    l7 = 238L - l6;
    break L1;
   }
   throw State.trap();
  }
  l7 = 8L;
  l4 = 66814L;
 }
 Words.put64(b, ((int) l0) - 58904, l7);
 Words.put64(b, ((int) l0) - 58912, l4);
 m.g0 = l5 + 288L;
}

static void f46(State m, long l0, long l1, long l2) {
 final byte[] b = m.bytes;
 long l3 = 0;
 int l4 = 0;
 int l5 = 0;
 L1: {
  L2: {
   L3: {
    if ((l3 = m.g0) < 16L) { break L3; }
    if ((l2 = l2 + -6L) + Long.MIN_VALUE > -9223372036854775803L) { break L2; }
    L4: {
     L5: {
      L6: {
       switch ((int) l2) {
       case 1: case 2: case 3: case 4: break L2;
       case 5: break L5;
       default: break L6;
       }
      }
      if ((b[((int) l1) - 58912] & 0xff) != 115) { break L2; }
      if (((b[((int) (l1 + 1L)) - 58912] & 0xff) & 255) != 105) { break L2; }
      if (((b[((int) (l1 + 2L)) - 58912] & 0xff) & 255) != 109) { break L2; }
      if (((b[((int) (l1 + 3L)) - 58912] & 0xff) & 255) == 112) { break L4; }
      break L2;
     }
     if ((b[((int) l1) - 58912] & 0xff) != 116) { break L2; }
     if (((b[((int) (l1 + 1L)) - 58912] & 0xff) & 255) != 114) { break L2; }
     if (((b[((int) (l1 + 2L)) - 58912] & 0xff) & 255) != 97) { break L2; }
     if (((b[((int) (l1 + 3L)) - 58912] & 0xff) & 255) != 100) { break L2; }
     if (f40(m, l1, 11L, 69224L) == 0) { break L2; }
     l4 = 0;
     l5 = 1;
     break L1;
    }
    l4 = l5 = f40(m, l1, 6L, 69235L);
    break L1;
   }
   throw State.trap();
  }
  l5 = 0;
  l4 = 0;
 }
 b[((int) l0) - 58911] = (byte) l4;
 b[((int) l0) - 58912] = (byte) l5;
 m.g0 = l3;
}

static void f47(State m, long l0, long l1, long l2) {
 final byte[] b = m.bytes;
 int l3 = 0;
 int l4 = 0;
 L1: {
  if (m.g0 < 16L) { break L1; }
  L2: {
   L3: {
    if (l2 != 5L) { break L3; }
    L4: {
     L5: {
      switch ((b[((int) l1) - 58912] & 0xff) + -108) {
      case 0: break L4;
      case 9: break L5;
      default: break L3;
      }
     }
     if ((b[((int) l1) - 58911] & 0xff) != 112) { break L3; }
     if ((b[((int) l1) - 58910] & 0xff) != 112) { break L3; }
     if ((b[((int) l1) - 58909] & 0xff) != 101) { break L3; }
     if ((b[((int) l1) - 58908] & 0xff) != 114) { break L3; }
     l3 = 1;
     l4 = 0;
     break L2;
    }
    if ((b[((int) l1) - 58911] & 0xff) != 111) { break L3; }
    if ((b[((int) l1) - 58910] & 0xff) != 119) { break L3; }
    if ((b[((int) l1) - 58909] & 0xff) != 101) { break L3; }
    if ((b[((int) l1) - 58908] & 0xff) != 114) { break L3; }
    l4 = 1;
    l3 = 1;
    break L2;
   }
   l4 = 0;
   l3 = 0;
  }
  b[((int) l0) - 58911] = (byte) l4;
  b[((int) l0) - 58912] = (byte) l3;
  return;
 }
 throw State.trap();
}

static void f48(State m, long l0, long l1, long l2) {
 final byte[] b = m.bytes;
 long l3 = 0;
 long l4 = 0;
 long l5 = 0;
 long l6 = 0;
 long l7 = 0;
 long l8 = 0;
 long l9 = 0;
 int l10 = 0;
 int l11 = 0;
 m.g0 = l3 = m.g0 - 32L;
 L1: {
  if ((l4 = l3) < 16L) { break L1; }
  L2: {
   L3: {
    if (!(l2 == 0L)) { break L3; }
    Words.put64(b, ((int) l0) - 58888, 0L);
    Words.put64(b, ((int) l0) - 58896, 0L);
    Words.put64(b, ((int) l0) - 58904, 0L);
    Words.put64(b, ((int) l0) - 58912, 0L);
    break L2;
   }
   l6 = l2 - (l5 = (l2 + Long.MIN_VALUE < -9223372036854775789L) ? l2 : 19L);
   l7 = l1 + l5;
   l8 = 0L;
   l3 = 0L;
   L4: {
    L5: while (true) {
     l10 = 0;
     L6: {
      if (((l11 = (b[((int) l1) - 58912] & 0xff) + -48) & 255) + Integer.MIN_VALUE <= -2147483639) { break L6; }
      l9 = 0L;
      break L4;
     }
     l3 = (l3 * 10L) + ((l11 & 0xffffffffL) & 255L);
     l1 = l1 + 1L;
     l9 = 0L;
     if ((l5 = l5 + -1L) != 0L) { continue L5; }
     break L5;
    }
    L7: {
     if (l2 + Long.MIN_VALUE >= -9223372036854775788L) { break L7; }
     l10 = 1;
     l8 = l3;
     break L4;
    }
    l8 = 0L;
    l1 = 0L;
    L8: while (true) {
     L9: {
      if (((l11 = (b[((int) l7) - 58912] & 0xff) + -48) & 255) + Integer.MIN_VALUE <= -2147483639) { break L9; }
      l9 = 0L;
      break L4;
     }
     l9 = 0L;
     Core1.f3(m, l4, l3, 0L, 10L, 0L);
     Core1.f3(m, l4 + 16L, l1, 0L, 10L, 0L);
     L10: {
      if ((Words.get64(b, ((int) l4) - 58888) + (((l1 = (l3 = Words.get64(b, ((int) l4) - 58904)) + Words.get64(b, ((int) l4) - 58896)) + Long.MIN_VALUE < l3 + Long.MIN_VALUE) ? 1L : 0L)) == 0L) { break L10; }
      l8 = 0L;
      break L4;
     }
     L11: {
      final int t12 = ((l5 = Words.get64(b, ((int) l4) - 58912) & -2L) + Long.MIN_VALUE > (((l3 = l11 & 0xffffffffL) ^ -1L) | -256L) + Long.MIN_VALUE) ? 1 : 0;
      final int t13 = (l1 == -1L) ? 1 : 0;
      if ((t13 != 0 ? t12 : 0) == 0) { break L11; }
      l8 = 0L;
      l10 = 0;
      l9 = 0L;
      break L4;
     }
     l7 = l7 + 1L;
     l1 = l1 + (((l3 = l5 + (l3 & 255L)) + Long.MIN_VALUE < l5 + Long.MIN_VALUE) ? 1L : 0L);
     if ((l6 = l6 + -1L) != 0L) { continue L8; }
     break L8;
    }
    l10 = 1;
    l8 = l3;
    l9 = l1;
   }
   Words.put64(b, ((int) l0) - 58904, 0L);
   Words.put64(b, ((int) (l0 + 24L)) - 58912, l9);
   Words.put64(b, ((int) (l0 + 16L)) - 58912, l8);
   Words.put64(b, ((int) l0) - 58912, l10 & 0xffffffffL);
  }
  m.g0 = l4 + 32L;
  return;
 }
 throw State.trap();
}

static int f49_1(State m, long l0, long l1, int l2, long l4, long l5, long l6, long l7, long l8, long l9, long l10, long l11, long l12, int l14, int l15, int l16, int l17, int l18) {
 final byte[] b = m.bytes;
 int exit = 0;
 PART: {
  L12: {
   L13: {
    L14: {
     switch ((int) ((l2 & 0xffffffffL) & 255L)) {
     case 1: break L13;
     case 2: break L12;
     case 3: exit = 1; break PART;
     default: break L14;
     }
    }
    l5 = 235L;
    L15: {
     L16: {
      if (l4 + Long.MIN_VALUE < -9223372036854775798L) { break L16; }
      l7 = l1 + 40L;
      l5 = 235L;
      l2 = 0;
      l8 = 0L;
      L17: while (true) {
       Words.put32(b, ((int) ((l0 + l5) + -4L)) - 58912, Words.get32(b, ((int) (l7 + ((b[((int) (l8 + 70108L)) - 58912] & 0xffL) << 2L))) - 58912));
       final long t18 = l0;
       final long t19 = ((l14 = ((l10 = (l9 = l4) - ((l4 = Long.divideUnsigned(l9, 10L)) * 10L)) != 0L) ? 1 : 0) != 0) ? -3L : 0L;
       final int t20 = (l8 != 0L) ? 1 : 0;
       Words.put32(b, ((int) ((t18 + (l5 = (t20 != 0 ? t19 : 0L) + l5)) + -4L)) - 58912, Words.get32(b, ((int) (l1 + (l10 << 2L))) - 58912));
       final long t21 = l5;
       final long t22 = ((l2 & 255) != 0) ? -3L : 0L;
       final int t23 = l14;
       l5 = t21 + (t23 != 0 ? -3L : t22);
       l8 = l8 + 1L;
       l2 = (int) l10;
       if (l9 + Long.MIN_VALUE > -9223372036854775709L) { continue L17; }
       break L17;
      }
      if (l8 == 0L) { break L16; }
      Words.put32(b, ((int) ((l0 + l5) + -4L)) - 58912, Words.get32(b, ((int) (l7 + ((b[((int) (l8 + 70108L)) - 58912] & 0xffL) << 2L))) - 58912));
      l5 = l5 + -3L;
      if ((l9 + -10L) + Long.MIN_VALUE >= -9223372036854775798L) { break L15; }
      if (l8 == 1L) { exit = 2; break PART; }
      exit = 3; break PART;
     }
     if (l4 == 1L) { exit = 3; break PART; }
    }
    Words.put32(b, ((int) ((l0 + l5) + -4L)) - 58912, Words.get32(b, ((int) (l1 + (l4 << 2L))) - 58912));
    l5 = l5 + -3L;
    exit = 2; break PART;
   }
   Words.put16(b, ((int) l6) - 58888, (short) 0);
   l9 = 0L;
   Words.put64(b, ((int) l6) - 58896, 0L);
   Words.put64(b, ((int) l6) - 58904, 0L);
   L24: {
    if (l5 == 0L) { break L24; }
    l7 = (l4 >>> 42L) | (l5 << 22L);
    l8 = l5 >>> 4L;
    l5 = l6 + 8L;
    l9 = 0L;
    L25: while (true) {
     Words.put16(b, ((int) (l5 + 6L)) - 58912, (short) Long.divideUnsigned(l4 = (((l7 = (((l8 = ((l8 - ((l10 = Long.divideUnsigned(l8, 152587890625L)) * 152587890625L)) << 26L) | (l7 & 67108863L)) - ((l8 = Long.divideUnsigned(l8, 152587890625L)) * 152587890625L)) << 26L) | ((l4 >>> 16L) & 67108863L)) - ((l7 = Long.divideUnsigned(l7, 152587890625L)) * 152587890625L)) << 16L) | (l4 & 65535L), 1000000000000L));
     Words.put16(b, ((int) (l5 + 4L)) - 58912, (short) ((int) ((((int) (l11 = Long.divideUnsigned(l4, 100000000L))) & 0xffffffffL) % 10000L)));
     Words.put16(b, ((int) (l5 + 2L)) - 58912, (short) (l14 = (int) (((l2 = (int) (l4 - (l11 * 100000000L))) & 0xffffffffL) / 10000L)));
     Words.put16(b, ((int) l5) - 58912, (short) (l2 - (l14 * 10000)));
     l7 = ((l4 = (l11 = l10 << 52L) + (l7 + (l8 << 26L))) >>> 42L) | ((l10 = (l10 >>> 12L) + ((l4 + Long.MIN_VALUE < l11 + Long.MIN_VALUE) ? 1L : 0L)) << 22L);
     l8 = l10 >>> 4L;
     l5 = l5 + 8L;
     l9 = l9 + 4L;
     if (l10 != 0L) { continue L25; }
     break L25;
    }
   }
   L26: {
    if (l4 + Long.MIN_VALUE < -9223372036854765808L) { break L26; }
    l5 = (l6 + 8L) + (l9 << 1L);
    L27: while (true) {
     Words.put16(b, ((int) l5) - 58912, (short) ((l8 = l4) - ((l4 = Long.divideUnsigned(l8, 10000L)) * 10000L)));
     l5 = l5 + 2L;
     l9 = l9 + 1L;
     if (l8 + Long.MIN_VALUE > -9223372036754775809L) { continue L27; }
     break L27;
    }
   }
   L28: {
    L29: {
     if (!(l9 == 0L)) { break L29; }
     l5 = 235L;
     break L28;
    }
    l12 = l1 + 40L;
    l5 = 235L;
    l8 = 0L;
    l10 = l6 + 8L;
    l11 = l9;
    l7 = 0L;
    L30: while (true) {
     L31: {
      if ((l2 = Words.get16(b, ((int) l10) - 58912) & 0xffff) == 0) { break L31; }
      L32: {
       if (l8 == 0L) { break L32; }
       L33: {
        if (l8 + Long.MIN_VALUE >= (l7 + 4L) + Long.MIN_VALUE) { break L33; }
        Words.put32(b, ((int) ((l0 + l5) + -4L)) - 58912, Words.get32(b, ((int) l1) - 58912));
        Words.put32(b, ((int) ((l0 + (l5 = ((l7 + Long.MIN_VALUE < l8 + Long.MIN_VALUE) ? -3L : 0L) + l5)) + -4L)) - 58912, Words.get32(b, ((int) (l12 + ((b[((int) (l8 + 70124L)) - 58912] & 0xffL) << 2L))) - 58912));
        l5 = l5 + -3L;
        break L32;
       }
       L34: {
        if ((l6 = (l7 + Long.MIN_VALUE > -9223372036854775807L) ? l7 : 1L) + Long.MIN_VALUE > l8 + Long.MIN_VALUE) { break L34; }
        L35: {
         if (l7 == 0L) { break L35; }
         if (l7 + Long.MIN_VALUE >= l8 + Long.MIN_VALUE) { break L35; }
         Words.put32(b, ((int) ((l0 + l5) + -4L)) - 58912, Words.get32(b, ((int) l1) - 58912));
         l5 = l5 + -3L;
        }
        Words.put32(b, ((int) ((l0 + l5) + -4L)) - 58912, Words.get32(b, ((int) (l12 + ((b[((int) (l8 + 70124L)) - 58912] & 0xffL) << 2L))) - 58912));
        l6 = l8 + 1L;
        l5 = l5 + -3L;
       }
       if (l6 + Long.MIN_VALUE > l8 + Long.MIN_VALUE) { break L32; }
       L36: {
        if (l7 + Long.MIN_VALUE >= l8 + Long.MIN_VALUE) { break L36; }
        if (l6 != l7) { break L36; }
        Words.put32(b, ((int) ((l0 + l5) + -4L)) - 58912, Words.get32(b, ((int) l1) - 58912));
        l5 = l5 + -3L;
       }
       Words.put32(b, ((int) ((l0 + l5) + -4L)) - 58912, Words.get32(b, ((int) (l12 + ((b[((int) (l8 + 70124L)) - 58912] & 0xffL) << 2L))) - 58912));
       l5 = l5 + -3L;
      }
      Words.put32(b, ((int) (l7 = (l0 + l5) + -4L)) - 58912, Words.get32(b, ((int) (l1 + 40L)) - 58912));
      Words.put32(b, ((int) l7) - 58912, Words.get32(b, ((int) (l1 + ((((l18 = (l14 = l2 - ((l15 = (int) ((l2 & 0xffffffffL) / 100L)) * 100)) - ((l17 = (int) (((l16 = l14 & 255) & 0xffffffffL) / 10L)) * 10)) << 2) & 0xffffffffL) & 252L))) - 58912));
      Words.put32(b, ((int) ((l0 + (l5 = l5 + (l7 = ((l18 & 255) != 0) ? -3L : 0L))) + -4L)) - 58912, Words.get32(b, ((int) (l1 + 44L)) - 58912));
      Words.put32(b, ((int) ((l0 + (l5 = l5 + (((l16 = (l16 + Integer.MIN_VALUE > -2147483639) ? 1 : 0) != 0) ? -3L : 0L))) + -4L)) - 58912, Words.get32(b, ((int) (l1 + ((l17 << 2) & 0xffffffffL))) - 58912));
      final long t37 = l0;
      final long t38 = l5;
      final long t39 = ((l17 = (l2 + Integer.MIN_VALUE > -2147483549) ? 1 : 0) != 0) ? l7 : 0L;
      final int t40 = l16;
      Words.put32(b, ((int) ((t37 + (l5 = t38 + (t40 != 0 ? -3L : t39))) + -4L)) - 58912, Words.get32(b, ((int) (l1 + 48L)) - 58912));
      Words.put32(b, ((int) ((l0 + (l5 = l5 + (((l15 = (int) ((l15 & 0xffffffffL) % 10L)) != 0) ? -3L : 0L))) + -4L)) - 58912, Words.get32(b, ((int) (l1 + ((l15 << 2) & 0xffffffffL))) - 58912));
      final long t41 = l0;
      final long t42 = l5;
      final long t43 = ((l14 & 65535) + Integer.MIN_VALUE > -2147483639) ? -3L : 0L;
      final int t44 = l14 = (l2 + Integer.MIN_VALUE > -2147482649) ? 1 : 0;
      final long t45 = t44 != 0 ? t43 : 0L;
      final int t46 = l15;
      Words.put32(b, ((int) ((t41 + (l5 = t42 + (t46 != 0 ? -3L : t45))) + -4L)) - 58912, Words.get32(b, ((int) (l1 + 52L)) - 58912));
      Words.put32(b, ((int) ((l0 + (l5 = l5 - (l7 = (l2 + Integer.MIN_VALUE < -2147482648) ? 0L : 3L))) + -4L)) - 58912, Words.get32(b, ((int) (l1 + ((((int) ((l2 & 0xffffffffL) / 1000L)) << 2) & 0xffffffffL))) - 58912));
      l5 = l5 - l7;
      l7 = l8 + ((((l2 + Integer.MIN_VALUE > -2147483639) ? 2L : 1L) + (l17 & 0xffffffffL)) + (l14 & 0xffffffffL));
     }
     l10 = l10 + 2L;
     l8 = l8 + 4L;
     if ((l11 = l11 + -1L) != 0L) { continue L30; }
     break L30;
    }
    if ((l8 = l9 << 2L) == 0L) { break L28; }
    L47: {
     if (l8 + Long.MIN_VALUE >= (l7 + 4L) + Long.MIN_VALUE) { break L47; }
     Words.put32(b, ((int) ((l0 + l5) + -4L)) - 58912, Words.get32(b, ((int) l1) - 58912));
     Words.put32(b, ((int) ((l0 + (l5 = ((l7 + Long.MIN_VALUE < l8 + Long.MIN_VALUE) ? -3L : 0L) + l5)) + -4L)) - 58912, Words.get32(b, ((int) (l12 + ((b[State.far((int) l8, 70124)] & 0xffL) << 2L))) - 58912));
     l5 = l5 + -3L;
     break L28;
    }
    L48: {
     if ((l9 = (l7 + Long.MIN_VALUE > -9223372036854775807L) ? l7 : 1L) + Long.MIN_VALUE > l8 + Long.MIN_VALUE) { break L48; }
     L49: {
      if (l7 == 0L) { break L49; }
      if (l7 + Long.MIN_VALUE >= l8 + Long.MIN_VALUE) { break L49; }
      Words.put32(b, ((int) ((l0 + l5) + -4L)) - 58912, Words.get32(b, ((int) l1) - 58912));
      l5 = l5 + -3L;
     }
     Words.put32(b, ((int) ((l0 + l5) + -4L)) - 58912, Words.get32(b, ((int) (l12 + ((b[State.far((int) l8, 70124)] & 0xffL) << 2L))) - 58912));
     l9 = l8 | 1L;
     l5 = l5 + -3L;
    }
    if (l9 + Long.MIN_VALUE > l8 + Long.MIN_VALUE) { break L28; }
    L50: {
     if (l7 + Long.MIN_VALUE >= l8 + Long.MIN_VALUE) { break L50; }
     if (l9 != l7) { break L50; }
     Words.put32(b, ((int) ((l0 + l5) + -4L)) - 58912, Words.get32(b, ((int) l1) - 58912));
     l5 = l5 + -3L;
    }
    Words.put32(b, ((int) ((l0 + l5) + -4L)) - 58912, Words.get32(b, ((int) (l12 + ((b[State.far((int) l8, 70124)] & 0xffL) << 2L))) - 58912));
    l5 = l5 + -3L;
   }
   L51: {
    L52: {
     if (l4 + Long.MIN_VALUE < -9223372036854775798L) { break L52; }
     l7 = l1 + 40L;
     l2 = 0;
     l8 = 0L;
     L53: while (true) {
      Words.put32(b, ((int) ((l0 + l5) + -4L)) - 58912, Words.get32(b, ((int) (l7 + ((b[((int) (l8 + 70108L)) - 58912] & 0xffL) << 2L))) - 58912));
      final long t54 = l0;
      final long t55 = ((l14 = ((l10 = (l9 = l4) - ((l4 = Long.divideUnsigned(l9, 10L)) * 10L)) != 0L) ? 1 : 0) != 0) ? -3L : 0L;
      final int t56 = (l8 != 0L) ? 1 : 0;
      Words.put32(b, ((int) ((t54 + (l5 = (t56 != 0 ? t55 : 0L) + l5)) + -4L)) - 58912, Words.get32(b, ((int) (l1 + (l10 << 2L))) - 58912));
      final long t57 = l5;
      final long t58 = ((l2 & 255) != 0) ? -3L : 0L;
      final int t59 = l14;
      l5 = t57 + (t59 != 0 ? -3L : t58);
      l8 = l8 + 1L;
      l2 = (int) l10;
      if (l9 + Long.MIN_VALUE > -9223372036854775709L) { continue L53; }
      break L53;
     }
     if (l8 == 0L) { break L52; }
     Words.put32(b, ((int) ((l0 + l5) + -4L)) - 58912, Words.get32(b, ((int) (l7 + ((b[((int) (l8 + 70108L)) - 58912] & 0xffL) << 2L))) - 58912));
     l5 = l5 + -3L;
     if ((l9 + -10L) + Long.MIN_VALUE >= -9223372036854775798L) { break L51; }
     if (l8 == 1L) { exit = 4; break PART; }
     exit = 5; break PART;
    }
    if (l4 == 1L) { exit = 5; break PART; }
   }
   Words.put32(b, ((int) ((l0 + l5) + -4L)) - 58912, Words.get32(b, ((int) (l1 + (l4 << 2L))) - 58912));
   l5 = l5 + -3L;
   exit = 4; break PART;
  }
 }
 m.kept[0] = l2;
 m.kept[1] = l4;
 m.kept[2] = l5;
 m.kept[3] = l6;
 m.kept[4] = l7;
 m.kept[5] = l8;
 m.kept[6] = l9;
 m.kept[7] = l10;
 m.kept[8] = l11;
 m.kept[9] = l12;
 m.kept[10] = l14;
 m.kept[11] = l15;
 m.kept[12] = l16;
 m.kept[13] = l17;
 m.kept[14] = l18;
 return exit;
}

static int f49_2(State m, long l0, long l1, int l2, long l5, long l6, long l7, long l8, long l9, long l10, long l11, long l12, long l13, int l14, int l15, int l16, int l17, int l18) {
 final byte[] b = m.bytes;
 int exit = 0;
 PART: {
  L105: {
   L106: {
    if (!(l9 == 0L)) { break L106; }
    l5 = 235L;
    break L105;
   }
   l12 = l1 + 40L;
   l5 = 235L;
   l8 = 0L;
   l10 = l6 + 8L;
   l11 = l9;
   l7 = 0L;
   L107: while (true) {
    L108: {
     if ((l2 = Words.get16(b, ((int) l10) - 58912) & 0xffff) == 0) { break L108; }
     L109: {
      if (l8 == 0L) { break L109; }
      L110: {
       if (l8 + Long.MIN_VALUE >= (l7 + 4L) + Long.MIN_VALUE) { break L110; }
       Words.put32(b, ((int) ((l0 + l5) + -4L)) - 58912, Words.get32(b, ((int) l1) - 58912));
       Words.put32(b, ((int) ((l0 + (l5 = ((l7 + Long.MIN_VALUE < l8 + Long.MIN_VALUE) ? -3L : 0L) + l5)) + -4L)) - 58912, Words.get32(b, ((int) (l12 + ((b[((int) (l8 + 70202L)) - 58912] & 0xffL) << 2L))) - 58912));
       l5 = l5 + -3L;
       break L109;
      }
      L111: {
       if ((l6 = (l7 + Long.MIN_VALUE > -9223372036854775807L) ? l7 : 1L) + Long.MIN_VALUE > (l13 = l8 & -32L) + Long.MIN_VALUE) { break L111; }
       L112: {
        if (l7 == 0L) { break L112; }
        if (l7 + Long.MIN_VALUE >= l13 + Long.MIN_VALUE) { break L112; }
        Words.put32(b, ((int) ((l0 + l5) + -4L)) - 58912, Words.get32(b, ((int) l1) - 58912));
        l5 = l5 + -3L;
       }
       Words.put32(b, ((int) ((l0 + l5) + -4L)) - 58912, Words.get32(b, ((int) (l12 + ((b[State.far((int) l13, 70202)] & 0xffL) << 2L))) - 58912));
       l6 = l13 | 1L;
       l5 = l5 + -3L;
      }
      L113: {
       if (l6 + Long.MIN_VALUE > (l13 = l8 & -16L) + Long.MIN_VALUE) { break L113; }
       L114: {
        if (l7 + Long.MIN_VALUE >= l13 + Long.MIN_VALUE) { break L114; }
        if (l6 != l7) { break L114; }
        Words.put32(b, ((int) ((l0 + l5) + -4L)) - 58912, Words.get32(b, ((int) l1) - 58912));
        l5 = l5 + -3L;
       }
       Words.put32(b, ((int) ((l0 + l5) + -4L)) - 58912, Words.get32(b, ((int) (l12 + ((b[State.far((int) l13, 70202)] & 0xffL) << 2L))) - 58912));
       l6 = l13 | 1L;
       l5 = l5 + -3L;
      }
      L115: {
       if (l6 + Long.MIN_VALUE > (l13 = l8 & -8L) + Long.MIN_VALUE) { break L115; }
       L116: {
        if (l7 + Long.MIN_VALUE >= l13 + Long.MIN_VALUE) { break L116; }
        if (l6 != l7) { break L116; }
        Words.put32(b, ((int) ((l0 + l5) + -4L)) - 58912, Words.get32(b, ((int) l1) - 58912));
        l5 = l5 + -3L;
       }
       Words.put32(b, ((int) ((l0 + l5) + -4L)) - 58912, Words.get32(b, ((int) (l12 + ((b[State.far((int) l13, 70202)] & 0xffL) << 2L))) - 58912));
       l6 = l13 | 1L;
       l5 = l5 + -3L;
      }
      L117: {
       if (l6 + Long.MIN_VALUE > l8 + Long.MIN_VALUE) { break L117; }
       L118: {
        if (l7 + Long.MIN_VALUE >= l8 + Long.MIN_VALUE) { break L118; }
        if (l6 != l7) { break L118; }
        Words.put32(b, ((int) ((l0 + l5) + -4L)) - 58912, Words.get32(b, ((int) l1) - 58912));
        l5 = l5 + -3L;
       }
       Words.put32(b, ((int) ((l0 + l5) + -4L)) - 58912, Words.get32(b, ((int) (l12 + ((b[((int) (l8 + 70202L)) - 58912] & 0xffL) << 2L))) - 58912));
       l6 = l8 + 1L;
       l5 = l5 + -3L;
      }
      if (l6 + Long.MIN_VALUE > l8 + Long.MIN_VALUE) { break L109; }
      L119: {
       if (l7 + Long.MIN_VALUE >= l8 + Long.MIN_VALUE) { break L119; }
       if (l6 != l7) { break L119; }
       Words.put32(b, ((int) ((l0 + l5) + -4L)) - 58912, Words.get32(b, ((int) l1) - 58912));
       l5 = l5 + -3L;
      }
      Words.put32(b, ((int) ((l0 + l5) + -4L)) - 58912, Words.get32(b, ((int) (l12 + ((b[((int) (l8 + 70202L)) - 58912] & 0xffL) << 2L))) - 58912));
      l5 = l5 + -3L;
     }
     Words.put32(b, ((int) (l7 = (l0 + l5) + -4L)) - 58912, Words.get32(b, ((int) (l1 + 40L)) - 58912));
     Words.put32(b, ((int) l7) - 58912, Words.get32(b, ((int) (l1 + ((((l18 = (l14 = l2 - ((l15 = (int) ((l2 & 0xffffffffL) / 100L)) * 100)) - ((l17 = (int) (((l16 = l14 & 255) & 0xffffffffL) / 10L)) * 10)) << 2) & 0xffffffffL) & 252L))) - 58912));
     Words.put32(b, ((int) ((l0 + (l5 = l5 + (l7 = ((l18 & 255) != 0) ? -3L : 0L))) + -4L)) - 58912, Words.get32(b, ((int) (l1 + 44L)) - 58912));
     Words.put32(b, ((int) ((l0 + (l5 = l5 + (((l16 = (l16 + Integer.MIN_VALUE > -2147483639) ? 1 : 0) != 0) ? -3L : 0L))) + -4L)) - 58912, Words.get32(b, ((int) (l1 + ((l17 << 2) & 0xffffffffL))) - 58912));
     final long t120 = l0;
     final long t121 = l5;
     final long t122 = ((l17 = (l2 + Integer.MIN_VALUE > -2147483549) ? 1 : 0) != 0) ? l7 : 0L;
     final int t123 = l16;
     Words.put32(b, ((int) ((t120 + (l5 = t121 + (t123 != 0 ? -3L : t122))) + -4L)) - 58912, Words.get32(b, ((int) (l1 + 48L)) - 58912));
     Words.put32(b, ((int) ((l0 + (l5 = l5 + (((l15 = (int) ((l15 & 0xffffffffL) % 10L)) != 0) ? -3L : 0L))) + -4L)) - 58912, Words.get32(b, ((int) (l1 + ((l15 << 2) & 0xffffffffL))) - 58912));
     final long t124 = l0;
     final long t125 = l5;
     final long t126 = ((l14 & 65535) + Integer.MIN_VALUE > -2147483639) ? -3L : 0L;
     final int t127 = l14 = (l2 + Integer.MIN_VALUE > -2147482649) ? 1 : 0;
     final long t128 = t127 != 0 ? t126 : 0L;
     final int t129 = l15;
     Words.put32(b, ((int) ((t124 + (l5 = t125 + (t129 != 0 ? -3L : t128))) + -4L)) - 58912, Words.get32(b, ((int) (l1 + 52L)) - 58912));
     Words.put32(b, ((int) ((l0 + (l5 = l5 - (l7 = (l2 + Integer.MIN_VALUE < -2147482648) ? 0L : 3L))) + -4L)) - 58912, Words.get32(b, ((int) (l1 + ((((int) ((l2 & 0xffffffffL) / 1000L)) << 2) & 0xffffffffL))) - 58912));
     l5 = l5 - l7;
     l7 = l8 + ((((l2 + Integer.MIN_VALUE > -2147483639) ? 2L : 1L) + (l17 & 0xffffffffL)) + (l14 & 0xffffffffL));
    }
    l10 = l10 + 2L;
    l8 = l8 + 4L;
    if ((l11 = l11 + -1L) != 0L) { continue L107; }
    break L107;
   }
   if ((l8 = l9 << 2L) == 0L) { break L105; }
   L130: {
    if (l8 + Long.MIN_VALUE >= (l7 + 4L) + Long.MIN_VALUE) { break L130; }
    Words.put32(b, ((int) ((l0 + l5) + -4L)) - 58912, Words.get32(b, ((int) l1) - 58912));
    Words.put32(b, ((int) ((l0 + (l5 = ((l7 + Long.MIN_VALUE < l8 + Long.MIN_VALUE) ? -3L : 0L) + l5)) + -4L)) - 58912, Words.get32(b, ((int) (l12 + ((b[State.far((int) l8, 70202)] & 0xffL) << 2L))) - 58912));
    l5 = l5 + -3L;
    break L105;
   }
   L131: {
    if ((l9 = (l7 + Long.MIN_VALUE > -9223372036854775807L) ? l7 : 1L) + Long.MIN_VALUE > (l10 = l8 & -32L) + Long.MIN_VALUE) { break L131; }
    L132: {
     if (l7 == 0L) { break L132; }
     if (l7 + Long.MIN_VALUE >= l10 + Long.MIN_VALUE) { break L132; }
     Words.put32(b, ((int) ((l0 + l5) + -4L)) - 58912, Words.get32(b, ((int) l1) - 58912));
     l5 = l5 + -3L;
    }
    Words.put32(b, ((int) ((l0 + l5) + -4L)) - 58912, Words.get32(b, ((int) (l12 + ((b[State.far((int) l10, 70202)] & 0xffL) << 2L))) - 58912));
    l9 = l10 | 1L;
    l5 = l5 + -3L;
   }
   L133: {
    if (l9 + Long.MIN_VALUE > (l10 = l8 & -16L) + Long.MIN_VALUE) { break L133; }
    L134: {
     if (l7 + Long.MIN_VALUE >= l10 + Long.MIN_VALUE) { break L134; }
     if (l9 != l7) { break L134; }
     Words.put32(b, ((int) ((l0 + l5) + -4L)) - 58912, Words.get32(b, ((int) l1) - 58912));
     l5 = l5 + -3L;
    }
    Words.put32(b, ((int) ((l0 + l5) + -4L)) - 58912, Words.get32(b, ((int) (l12 + ((b[State.far((int) l10, 70202)] & 0xffL) << 2L))) - 58912));
    l9 = l10 | 1L;
    l5 = l5 + -3L;
   }
   L135: {
    if (l9 + Long.MIN_VALUE > (l10 = l8 & -8L) + Long.MIN_VALUE) { break L135; }
    L136: {
     if (l7 + Long.MIN_VALUE >= l10 + Long.MIN_VALUE) { break L136; }
     if (l9 != l7) { break L136; }
     Words.put32(b, ((int) ((l0 + l5) + -4L)) - 58912, Words.get32(b, ((int) l1) - 58912));
     l5 = l5 + -3L;
    }
    Words.put32(b, ((int) ((l0 + l5) + -4L)) - 58912, Words.get32(b, ((int) (l12 + ((b[State.far((int) l10, 70202)] & 0xffL) << 2L))) - 58912));
    l9 = l10 | 1L;
    l5 = l5 + -3L;
   }
   L137: {
    if (l9 + Long.MIN_VALUE > l8 + Long.MIN_VALUE) { break L137; }
    L138: {
     if (l7 + Long.MIN_VALUE >= l8 + Long.MIN_VALUE) { break L138; }
     if (l9 != l7) { break L138; }
     Words.put32(b, ((int) ((l0 + l5) + -4L)) - 58912, Words.get32(b, ((int) l1) - 58912));
     l5 = l5 + -3L;
    }
    Words.put32(b, ((int) ((l0 + l5) + -4L)) - 58912, Words.get32(b, ((int) (l12 + ((b[State.far((int) l8, 70202)] & 0xffL) << 2L))) - 58912));
    l9 = l8 | 1L;
    l5 = l5 + -3L;
   }
   if (l9 + Long.MIN_VALUE > l8 + Long.MIN_VALUE) { break L105; }
   L139: {
    if (l7 + Long.MIN_VALUE >= l8 + Long.MIN_VALUE) { break L139; }
    if (l9 != l7) { break L139; }
    Words.put32(b, ((int) ((l0 + l5) + -4L)) - 58912, Words.get32(b, ((int) l1) - 58912));
    l5 = l5 + -3L;
   }
   Words.put32(b, ((int) ((l0 + l5) + -4L)) - 58912, Words.get32(b, ((int) (l12 + ((b[State.far((int) l8, 70202)] & 0xffL) << 2L))) - 58912));
   l5 = l5 + -3L;
  }
 }
 m.kept[0] = l2;
 m.kept[1] = l5;
 m.kept[2] = l6;
 m.kept[3] = l7;
 m.kept[4] = l8;
 m.kept[5] = l9;
 m.kept[6] = l10;
 m.kept[7] = l11;
 m.kept[8] = l12;
 m.kept[9] = l13;
 m.kept[10] = l14;
 m.kept[11] = l15;
 m.kept[12] = l16;
 m.kept[13] = l17;
 m.kept[14] = l18;
 return exit;
}

static long f49(State m, long l0, long l1, int l2, int l3, long l4, long l5) {
 final byte[] b = m.bytes;
 long l6 = 0;
 long l7 = 0;
 long l8 = 0;
 long l9 = 0;
 long l10 = 0;
 long l11 = 0;
 long l12 = 0;
 long l13 = 0;
 int l14 = 0;
 int l15 = 0;
 int l16 = 0;
 int l17 = 0;
 int l18 = 0;
 L1: {
  L2: {
   L3: {
    L4: {
     L5: {
      L6: {
       L7: {
        L8: {
         L9: {
          L10: {
           if ((l6 = m.g0 - 32L) < 16L) { break L10; }
           l1 = Words.get64(b, ((int) l1) - 58904);
           L11: {
            final int x60 = f49_1(m, l0, l1, l2, l4, l5, l6, l7, l8, l9, l10, l11, l12, l14, l15, l16, l17, l18);
            l2 = (int) m.kept[0];
            l4 = m.kept[1];
            l5 = m.kept[2];
            l6 = m.kept[3];
            l7 = m.kept[4];
            l8 = m.kept[5];
            l9 = m.kept[6];
            l10 = m.kept[7];
            l11 = m.kept[8];
            l12 = m.kept[9];
            l14 = (int) m.kept[10];
            l15 = (int) m.kept[11];
            l16 = (int) m.kept[12];
            l17 = (int) m.kept[13];
            l18 = (int) m.kept[14];
            switch (x60) {
            case 1: break L11;
            case 2: break L2;
            case 3: break L3;
            case 4: break L4;
            case 5: break L5;
            }
            Words.put16(b, ((int) l6) - 58888, (short) 0);
            l9 = 0L;
            Words.put64(b, ((int) l6) - 58896, 0L);
            Words.put64(b, ((int) l6) - 58904, 0L);
            L61: {
             if (l5 == 0L) { break L61; }
             l7 = (l4 >>> 42L) | (l5 << 22L);
             l8 = l5 >>> 4L;
             l5 = l6 + 8L;
             l9 = 0L;
             L62: while (true) {
              Words.put16(b, ((int) (l5 + 6L)) - 58912, (short) Long.divideUnsigned(l4 = (((l7 = (((l8 = ((l8 - ((l10 = Long.divideUnsigned(l8, 152587890625L)) * 152587890625L)) << 26L) | (l7 & 67108863L)) - ((l8 = Long.divideUnsigned(l8, 152587890625L)) * 152587890625L)) << 26L) | ((l4 >>> 16L) & 67108863L)) - ((l7 = Long.divideUnsigned(l7, 152587890625L)) * 152587890625L)) << 16L) | (l4 & 65535L), 1000000000000L));
              Words.put16(b, ((int) (l5 + 4L)) - 58912, (short) ((int) ((((int) (l11 = Long.divideUnsigned(l4, 100000000L))) & 0xffffffffL) % 10000L)));
              Words.put16(b, ((int) (l5 + 2L)) - 58912, (short) (l14 = (int) (((l2 = (int) (l4 - (l11 * 100000000L))) & 0xffffffffL) / 10000L)));
              Words.put16(b, ((int) l5) - 58912, (short) (l2 - (l14 * 10000)));
              l7 = ((l4 = (l11 = l10 << 52L) + (l7 + (l8 << 26L))) >>> 42L) | ((l10 = (l10 >>> 12L) + ((l4 + Long.MIN_VALUE < l11 + Long.MIN_VALUE) ? 1L : 0L)) << 22L);
              l8 = l10 >>> 4L;
              l5 = l5 + 8L;
              l9 = l9 + 4L;
              if (l10 != 0L) { continue L62; }
              break L62;
             }
            }
            L63: {
             if (l4 + Long.MIN_VALUE < -9223372036854765808L) { break L63; }
             l5 = (l6 + 8L) + (l9 << 1L);
             L64: while (true) {
              Words.put16(b, ((int) l5) - 58912, (short) ((l8 = l4) - ((l4 = Long.divideUnsigned(l8, 10000L)) * 10000L)));
              l5 = l5 + 2L;
              l9 = l9 + 1L;
              if (l8 + Long.MIN_VALUE > -9223372036754775809L) { continue L64; }
              break L64;
             }
            }
            L65: {
             L66: {
              if (!(l9 == 0L)) { break L66; }
              l5 = 235L;
              break L65;
             }
             l12 = l1 + 40L;
             l5 = 235L;
             l8 = 0L;
             l10 = l6 + 8L;
             l11 = l9;
             l7 = 0L;
             L67: while (true) {
              L68: {
               if ((l2 = Words.get16(b, ((int) l10) - 58912) & 0xffff) == 0) { break L68; }
               L69: {
                if (l8 == 0L) { break L69; }
                L70: {
                 if (l8 + Long.MIN_VALUE >= (l7 + 4L) + Long.MIN_VALUE) { break L70; }
                 Words.put32(b, ((int) ((l0 + l5) + -4L)) - 58912, Words.get32(b, ((int) l1) - 58912));
                 Words.put32(b, ((int) ((l0 + (l5 = ((l7 + Long.MIN_VALUE < l8 + Long.MIN_VALUE) ? -3L : 0L) + l5)) + -4L)) - 58912, Words.get32(b, ((int) (l12 + ((b[((int) (l8 + 70163L)) - 58912] & 0xffL) << 2L))) - 58912));
                 l5 = l5 + -3L;
                 break L69;
                }
                L71: {
                 if ((l6 = (l7 + Long.MIN_VALUE > -9223372036854775807L) ? l7 : 1L) + Long.MIN_VALUE > (l13 = l8 & -8L) + Long.MIN_VALUE) { break L71; }
                 L72: {
                  if (l7 == 0L) { break L72; }
                  if (l7 + Long.MIN_VALUE >= l13 + Long.MIN_VALUE) { break L72; }
                  Words.put32(b, ((int) ((l0 + l5) + -4L)) - 58912, Words.get32(b, ((int) l1) - 58912));
                  l5 = l5 + -3L;
                 }
                 Words.put32(b, ((int) ((l0 + l5) + -4L)) - 58912, Words.get32(b, ((int) (l12 + ((b[State.far((int) l13, 70163)] & 0xffL) << 2L))) - 58912));
                 l6 = l13 | 1L;
                 l5 = l5 + -3L;
                }
                L73: {
                 if (l6 + Long.MIN_VALUE > l8 + Long.MIN_VALUE) { break L73; }
                 L74: {
                  if (l7 + Long.MIN_VALUE >= l8 + Long.MIN_VALUE) { break L74; }
                  if (l6 != l7) { break L74; }
                  Words.put32(b, ((int) ((l0 + l5) + -4L)) - 58912, Words.get32(b, ((int) l1) - 58912));
                  l5 = l5 + -3L;
                 }
                 Words.put32(b, ((int) ((l0 + l5) + -4L)) - 58912, Words.get32(b, ((int) (l12 + ((b[((int) (l8 + 70163L)) - 58912] & 0xffL) << 2L))) - 58912));
                 l6 = l8 + 1L;
                 l5 = l5 + -3L;
                }
                if (l6 + Long.MIN_VALUE > l8 + Long.MIN_VALUE) { break L69; }
                L75: {
                 if (l7 + Long.MIN_VALUE >= l8 + Long.MIN_VALUE) { break L75; }
                 if (l6 != l7) { break L75; }
                 Words.put32(b, ((int) ((l0 + l5) + -4L)) - 58912, Words.get32(b, ((int) l1) - 58912));
                 l5 = l5 + -3L;
                }
                Words.put32(b, ((int) ((l0 + l5) + -4L)) - 58912, Words.get32(b, ((int) (l12 + ((b[((int) (l8 + 70163L)) - 58912] & 0xffL) << 2L))) - 58912));
                l5 = l5 + -3L;
               }
               Words.put32(b, ((int) (l7 = (l0 + l5) + -4L)) - 58912, Words.get32(b, ((int) (l1 + 40L)) - 58912));
               Words.put32(b, ((int) l7) - 58912, Words.get32(b, ((int) (l1 + ((((l18 = (l14 = l2 - ((l15 = (int) ((l2 & 0xffffffffL) / 100L)) * 100)) - ((l17 = (int) (((l16 = l14 & 255) & 0xffffffffL) / 10L)) * 10)) << 2) & 0xffffffffL) & 252L))) - 58912));
               Words.put32(b, ((int) ((l0 + (l5 = l5 + (l7 = ((l18 & 255) != 0) ? -3L : 0L))) + -4L)) - 58912, Words.get32(b, ((int) (l1 + 44L)) - 58912));
               Words.put32(b, ((int) ((l0 + (l5 = l5 + (((l16 = (l16 + Integer.MIN_VALUE > -2147483639) ? 1 : 0) != 0) ? -3L : 0L))) + -4L)) - 58912, Words.get32(b, ((int) (l1 + ((l17 << 2) & 0xffffffffL))) - 58912));
               final long t76 = l0;
               final long t77 = l5;
               final long t78 = ((l17 = (l2 + Integer.MIN_VALUE > -2147483549) ? 1 : 0) != 0) ? l7 : 0L;
               final int t79 = l16;
               Words.put32(b, ((int) ((t76 + (l5 = t77 + (t79 != 0 ? -3L : t78))) + -4L)) - 58912, Words.get32(b, ((int) (l1 + 48L)) - 58912));
               Words.put32(b, ((int) ((l0 + (l5 = l5 + (((l15 = (int) ((l15 & 0xffffffffL) % 10L)) != 0) ? -3L : 0L))) + -4L)) - 58912, Words.get32(b, ((int) (l1 + ((l15 << 2) & 0xffffffffL))) - 58912));
               final long t80 = l0;
               final long t81 = l5;
               final long t82 = ((l14 & 65535) + Integer.MIN_VALUE > -2147483639) ? -3L : 0L;
               final int t83 = l14 = (l2 + Integer.MIN_VALUE > -2147482649) ? 1 : 0;
               final long t84 = t83 != 0 ? t82 : 0L;
               final int t85 = l15;
               Words.put32(b, ((int) ((t80 + (l5 = t81 + (t85 != 0 ? -3L : t84))) + -4L)) - 58912, Words.get32(b, ((int) (l1 + 52L)) - 58912));
               Words.put32(b, ((int) ((l0 + (l5 = l5 - (l7 = (l2 + Integer.MIN_VALUE < -2147482648) ? 0L : 3L))) + -4L)) - 58912, Words.get32(b, ((int) (l1 + ((((int) ((l2 & 0xffffffffL) / 1000L)) << 2) & 0xffffffffL))) - 58912));
               l5 = l5 - l7;
               l7 = l8 + ((((l2 + Integer.MIN_VALUE > -2147483639) ? 2L : 1L) + (l17 & 0xffffffffL)) + (l14 & 0xffffffffL));
              }
              l10 = l10 + 2L;
              l8 = l8 + 4L;
              if ((l11 = l11 + -1L) != 0L) { continue L67; }
              break L67;
             }
             if ((l8 = l9 << 2L) == 0L) { break L65; }
             L86: {
              if (l8 + Long.MIN_VALUE >= (l7 + 4L) + Long.MIN_VALUE) { break L86; }
              Words.put32(b, ((int) ((l0 + l5) + -4L)) - 58912, Words.get32(b, ((int) l1) - 58912));
              Words.put32(b, ((int) ((l0 + (l5 = ((l7 + Long.MIN_VALUE < l8 + Long.MIN_VALUE) ? -3L : 0L) + l5)) + -4L)) - 58912, Words.get32(b, ((int) (l12 + ((b[State.far((int) l8, 70163)] & 0xffL) << 2L))) - 58912));
              l5 = l5 + -3L;
              break L65;
             }
             L87: {
              if ((l9 = (l7 + Long.MIN_VALUE > -9223372036854775807L) ? l7 : 1L) + Long.MIN_VALUE > (l10 = l8 & -8L) + Long.MIN_VALUE) { break L87; }
              L88: {
               if (l7 == 0L) { break L88; }
               if (l7 + Long.MIN_VALUE >= l10 + Long.MIN_VALUE) { break L88; }
               Words.put32(b, ((int) ((l0 + l5) + -4L)) - 58912, Words.get32(b, ((int) l1) - 58912));
               l5 = l5 + -3L;
              }
              Words.put32(b, ((int) ((l0 + l5) + -4L)) - 58912, Words.get32(b, ((int) (l12 + ((b[State.far((int) l10, 70163)] & 0xffL) << 2L))) - 58912));
              l9 = l10 | 1L;
              l5 = l5 + -3L;
             }
             L89: {
              if (l9 + Long.MIN_VALUE > l8 + Long.MIN_VALUE) { break L89; }
              L90: {
               if (l7 + Long.MIN_VALUE >= l8 + Long.MIN_VALUE) { break L90; }
               if (l9 != l7) { break L90; }
               Words.put32(b, ((int) ((l0 + l5) + -4L)) - 58912, Words.get32(b, ((int) l1) - 58912));
               l5 = l5 + -3L;
              }
              Words.put32(b, ((int) ((l0 + l5) + -4L)) - 58912, Words.get32(b, ((int) (l12 + ((b[State.far((int) l8, 70163)] & 0xffL) << 2L))) - 58912));
              l9 = l8 | 1L;
              l5 = l5 + -3L;
             }
             if (l9 + Long.MIN_VALUE > l8 + Long.MIN_VALUE) { break L65; }
             L91: {
              if (l7 + Long.MIN_VALUE >= l8 + Long.MIN_VALUE) { break L91; }
              if (l9 != l7) { break L91; }
              Words.put32(b, ((int) ((l0 + l5) + -4L)) - 58912, Words.get32(b, ((int) l1) - 58912));
              l5 = l5 + -3L;
             }
             Words.put32(b, ((int) ((l0 + l5) + -4L)) - 58912, Words.get32(b, ((int) (l12 + ((b[State.far((int) l8, 70163)] & 0xffL) << 2L))) - 58912));
             l5 = l5 + -3L;
            }
            L92: {
             L93: {
              if (l4 + Long.MIN_VALUE < -9223372036854775798L) { break L93; }
              l7 = l1 + 40L;
              l2 = 0;
              l8 = 0L;
              L94: while (true) {
               Words.put32(b, ((int) ((l0 + l5) + -4L)) - 58912, Words.get32(b, ((int) (l7 + ((b[((int) (l8 + 70108L)) - 58912] & 0xffL) << 2L))) - 58912));
               final long t95 = l0;
               final long t96 = ((l14 = ((l10 = (l9 = l4) - ((l4 = Long.divideUnsigned(l9, 10L)) * 10L)) != 0L) ? 1 : 0) != 0) ? -3L : 0L;
               final int t97 = (l8 != 0L) ? 1 : 0;
               Words.put32(b, ((int) ((t95 + (l5 = (t97 != 0 ? t96 : 0L) + l5)) + -4L)) - 58912, Words.get32(b, ((int) (l1 + (l10 << 2L))) - 58912));
               final long t98 = l5;
               final long t99 = ((l2 & 255) != 0) ? -3L : 0L;
               final int t100 = l14;
               l5 = t98 + (t100 != 0 ? -3L : t99);
               l8 = l8 + 1L;
               l2 = (int) l10;
               if (l9 + Long.MIN_VALUE > -9223372036854775709L) { continue L94; }
               break L94;
              }
              if (l8 == 0L) { break L93; }
              Words.put32(b, ((int) ((l0 + l5) + -4L)) - 58912, Words.get32(b, ((int) (l7 + ((b[((int) (l8 + 70108L)) - 58912] & 0xffL) << 2L))) - 58912));
              l5 = l5 + -3L;
              if ((l9 + -10L) + Long.MIN_VALUE >= -9223372036854775798L) { break L92; }
              if (l8 == 1L) { break L6; }
              break L7;
             }
             if (l4 == 1L) { break L7; }
            }
            Words.put32(b, ((int) ((l0 + l5) + -4L)) - 58912, Words.get32(b, ((int) (l1 + (l4 << 2L))) - 58912));
            l5 = l5 + -3L;
            break L6;
           }
           Words.put16(b, ((int) l6) - 58888, (short) 0);
           l9 = 0L;
           Words.put64(b, ((int) l6) - 58896, 0L);
           Words.put64(b, ((int) l6) - 58904, 0L);
           L101: {
            if (l5 == 0L) { break L101; }
            l7 = (l4 >>> 42L) | (l5 << 22L);
            l8 = l5 >>> 4L;
            l5 = l6 + 8L;
            l9 = 0L;
            L102: while (true) {
             Words.put16(b, ((int) (l5 + 6L)) - 58912, (short) Long.divideUnsigned(l4 = (((l7 = (((l8 = ((l8 - ((l10 = Long.divideUnsigned(l8, 152587890625L)) * 152587890625L)) << 26L) | (l7 & 67108863L)) - ((l8 = Long.divideUnsigned(l8, 152587890625L)) * 152587890625L)) << 26L) | ((l4 >>> 16L) & 67108863L)) - ((l7 = Long.divideUnsigned(l7, 152587890625L)) * 152587890625L)) << 16L) | (l4 & 65535L), 1000000000000L));
             Words.put16(b, ((int) (l5 + 4L)) - 58912, (short) ((int) ((((int) (l11 = Long.divideUnsigned(l4, 100000000L))) & 0xffffffffL) % 10000L)));
             Words.put16(b, ((int) (l5 + 2L)) - 58912, (short) (l14 = (int) (((l2 = (int) (l4 - (l11 * 100000000L))) & 0xffffffffL) / 10000L)));
             Words.put16(b, ((int) l5) - 58912, (short) (l2 - (l14 * 10000)));
             l7 = ((l4 = (l11 = l10 << 52L) + (l7 + (l8 << 26L))) >>> 42L) | ((l10 = (l10 >>> 12L) + ((l4 + Long.MIN_VALUE < l11 + Long.MIN_VALUE) ? 1L : 0L)) << 22L);
             l8 = l10 >>> 4L;
             l5 = l5 + 8L;
             l9 = l9 + 4L;
             if (l10 != 0L) { continue L102; }
             break L102;
            }
           }
           L103: {
            if (l4 + Long.MIN_VALUE < -9223372036854765808L) { break L103; }
            l5 = (l6 + 8L) + (l9 << 1L);
            L104: while (true) {
             Words.put16(b, ((int) l5) - 58912, (short) ((l8 = l4) - ((l4 = Long.divideUnsigned(l8, 10000L)) * 10000L)));
             l5 = l5 + 2L;
             l9 = l9 + 1L;
             if (l8 + Long.MIN_VALUE > -9223372036754775809L) { continue L104; }
             break L104;
            }
           }
           f49_2(m, l0, l1, l2, l5, l6, l7, l8, l9, l10, l11, l12, l13, l14, l15, l16, l17, l18);
           l2 = (int) m.kept[0];
           l5 = m.kept[1];
           l6 = m.kept[2];
           l7 = m.kept[3];
           l8 = m.kept[4];
           l9 = m.kept[5];
           l10 = m.kept[6];
           l11 = m.kept[7];
           l12 = m.kept[8];
           l13 = m.kept[9];
           l14 = (int) m.kept[10];
           l15 = (int) m.kept[11];
           l16 = (int) m.kept[12];
           l17 = (int) m.kept[13];
           l18 = (int) m.kept[14];
           L141: {
            L142: {
             if (l4 + Long.MIN_VALUE < -9223372036854775798L) { break L142; }
             l7 = l1 + 40L;
             l2 = 0;
             l8 = 0L;
             L143: while (true) {
              Words.put32(b, ((int) ((l0 + l5) + -4L)) - 58912, Words.get32(b, ((int) (l7 + ((b[((int) (l8 + 70108L)) - 58912] & 0xffL) << 2L))) - 58912));
              final long t144 = l0;
              final long t145 = ((l14 = ((l10 = (l9 = l4) - ((l4 = Long.divideUnsigned(l9, 10L)) * 10L)) != 0L) ? 1 : 0) != 0) ? -3L : 0L;
              final int t146 = (l8 != 0L) ? 1 : 0;
              Words.put32(b, ((int) ((t144 + (l5 = (t146 != 0 ? t145 : 0L) + l5)) + -4L)) - 58912, Words.get32(b, ((int) (l1 + (l10 << 2L))) - 58912));
              final long t147 = l5;
              final long t148 = ((l2 & 255) != 0) ? -3L : 0L;
              final int t149 = l14;
              l5 = t147 + (t149 != 0 ? -3L : t148);
              l8 = l8 + 1L;
              l2 = (int) l10;
              if (l9 + Long.MIN_VALUE > -9223372036854775709L) { continue L143; }
              break L143;
             }
             if (l8 == 0L) { break L142; }
             Words.put32(b, ((int) ((l0 + l5) + -4L)) - 58912, Words.get32(b, ((int) (l7 + ((b[((int) (l8 + 70108L)) - 58912] & 0xffL) << 2L))) - 58912));
             l5 = l5 + -3L;
             if ((l9 + -10L) + Long.MIN_VALUE >= -9223372036854775798L) { break L141; }
             if (l8 == 1L) { break L8; }
             break L9;
            }
            if (l4 == 1L) { break L9; }
           }
           Words.put32(b, ((int) ((l0 + l5) + -4L)) - 58912, Words.get32(b, ((int) (l1 + (l4 << 2L))) - 58912));
           l5 = l5 + -3L;
           break L8;
          }
          throw State.trap();
         }
         Words.put32(b, ((int) ((l0 + l5) + -4L)) - 58912, Words.get32(b, ((int) (l1 + 4L)) - 58912));
         l5 = l5 + -3L;
        }
        if (l3 == 0) { break L1; }
        Words.put32(b, ((int) ((l0 + l5) + -4L)) - 58912, Words.get32(b, ((int) (l1 + 104L)) - 58912));
        l5 = l5 + -3L;
        break L1;
       }
       Words.put32(b, ((int) ((l0 + l5) + -4L)) - 58912, Words.get32(b, ((int) (l1 + 4L)) - 58912));
       l5 = l5 + -3L;
      }
      if (l3 == 0) { break L1; }
      Words.put32(b, ((int) ((l0 + l5) + -4L)) - 58912, Words.get32(b, ((int) (l1 + 104L)) - 58912));
      final long t150 = l5 + -3L;
      return t150;
     }
     Words.put32(b, ((int) ((l0 + l5) + -4L)) - 58912, Words.get32(b, ((int) (l1 + 4L)) - 58912));
     l5 = l5 + -3L;
    }
    if (l3 == 0) { break L1; }
    Words.put32(b, ((int) ((l0 + l5) + -4L)) - 58912, Words.get32(b, ((int) (l1 + 104L)) - 58912));
    final long t151 = l5 + -3L;
    return t151;
   }
   Words.put32(b, ((int) ((l0 + l5) + -4L)) - 58912, Words.get32(b, ((int) (l1 + 4L)) - 58912));
   l5 = l5 + -3L;
  }
  if (l3 == 0) { break L1; }
  Words.put32(b, ((int) ((l0 + l5) + -4L)) - 58912, Words.get32(b, ((int) (l1 + 104L)) - 58912));
  final long t152 = l5 + -3L;
  return t152;
 }
 return l5;
}

static void f50(State m, long l0, long l1, int l2) {
 final byte[] b = m.bytes;
 long l3 = 0;
 long l4 = 0;
 long l5 = 0;
 long l6 = 0;
 long l7 = 0;
 long l8 = 0;
 long l9 = 0;
 m.g0 = l3 = m.g0 - 208L;
 L1: {
  if ((l3 = l3) < 16L) { break L1; }
  Words.put64(b, ((int) l3) - 58840, 0L);
  l5 = (l4 = ((l2 & 0xffffffffL) & 255L) << 3L) + 101496L;
  l6 = Words.get64(b, State.far((int) l4, 101080));
  l7 = Words.get64(b, State.far((int) l4, 100248));
  L2: {
   L3: {
    L4: {
     L5: {
      switch ((int) (b[((int) l0) - 58912] & 0xffL)) {
      case 1: break L5;
      case 2: break L4;
      default: break L2;
      }
     }
     l5 = l4 + 100664L;
     break L3;
    }
    l5 = l4 + 99832L;
   }
   l6 = l7;
  }
  Words.put32(b, ((int) l3) - 58836, 123);
  Words.put64(b, ((int) l3) - 58848, l6);
  Words.put64(b, ((int) l3) - 58864, 1L);
  Words.put64(b, ((int) l3) - 58856, l4 = Words.get64(b, ((int) l5) - 58912));
  l8 = l3 + 112L;
  l9 = l3 + 76L;
  l2 = 0;
  L6: while (true) {
   Words.put64(b, ((int) l3) - 58768, 0L);
   Words.put64(b, ((int) l3) - 58776, 0L);
   Words.put64(b, ((int) l3) - 58784, 0L);
   f51(m, l3 + 128L, l9, l4, l6);
   L7: {
    L8: {
     if ((b[((int) l3) - 58784] & 0xff) != 1) { break L8; }
     L9: {
      L10: {
       if ((l2 & (((l7 = Words.get64(b, ((int) l3) - 58768)) == 0L) ? 1 : 0)) == 1) { break L10; }
       l5 = Words.get64(b, ((int) l3) - 58776);
       break L9;
      }
      if (l6 == 0L) { break L8; }
      L11: {
       if ((l2 = (int) b[((int) l4) - 58912]) <= -1) { break L11; }
       l5 = 1L;
       l7 = 1L;
       break L9;
      }
      L12: {
       if (l2 + Integer.MIN_VALUE >= 2147483616) { break L12; }
       l5 = 2L;
       l7 = 2L;
       break L9;
      }
      l7 = l5 = (l2 + Integer.MIN_VALUE < 2147483632) ? 3L : 4L;
     }
     b[((int) l3) - 58840] = (byte) 1;
     Words.put64(b, ((int) l3) - 58864, 1L);
     Words.put64(b, ((int) l3) - 58848, l6 - l7);
     Words.put64(b, ((int) l3) - 58856, l4 + l7);
     break L7;
    }
    b[((int) l3) - 58840] = (byte) 1;
    Words.put64(b, ((int) l3) - 58864, 0L);
    Words.put64(b, ((int) l3) - 58856, 0L);
    Words.put64(b, ((int) l3) - 58848, 0L);
    l5 = l6;
   }
   Words.put32(b, ((int) l3) - 58832, 125);
   Words.put64(b, ((int) l3) - 58768, 0L);
   Words.put64(b, ((int) l3) - 58776, 0L);
   Words.put64(b, ((int) l3) - 58784, 0L);
   f51(m, l3 + 128L, l3 + 80L, l4, l5);
   L13: {
    L14: {
     if ((b[((int) l3) - 58784] & 0xff) != 1) { break L14; }
     l6 = l5 - (l7 = Words.get64(b, ((int) l3) - 58768));
     l5 = l4 + l7;
     L15: {
      if (Core1.f31(m, l4, l7 = Words.get64(b, ((int) l3) - 58776), 77226L, 5L) == 0) { break L15; }
      l4 = Words.get64(b, ((int) (l0 + 24L)) - 58912);
      Words.put64(b, ((int) l8) - 58904, 0L);
      Words.put64(b, ((int) l8) - 58912, 0L);
      m.fill((int) (l3 + 128L), 0, (int) 80L);
      Words.put64(b, ((int) l3) - 58808, 0L);
      Words.put64(b, ((int) l3) - 58816, 1L);
      Words.put64(b, ((int) l3) - 58832, l4 = l4 + 1L);
      Words.put64(b, ((int) l3) - 58824, (l4 == 0L) ? 1L : 0L);
      f52(m, l3, l3 + 128L, l3 + 80L);
      f53(m, l1, Words.get64(b, ((int) l3) - 58912), Words.get64(b, ((int) l3) - 58904));
      f53(m, l1, l5, l6);
      break L13;
     }
     L16: {
      if (Core1.f31(m, l4, l7, 77231L, 5L) == 0) { break L16; }
      l2 = b[((int) l0) - 58912] & 0xff;
      Core1.f30(m, l3 + 16L, Words.get64(b, ((int) (l0 + 8L)) - 58912), Words.get64(b, ((int) (l0 + 16L)) - 58912), Words.get64(b, ((int) (l0 + 24L)) - 58912));
      f54(m, l1, l2, Words.get64(b, ((int) l3) - 58896), Words.get64(b, ((int) l3) - 58888));
      f53(m, l1, l5, l6);
      break L13;
     }
     L17: {
      if (Core1.f31(m, l4, l7, 77236L, 5L) == 0) { break L17; }
      l2 = b[((int) l0) - 58912] & 0xff;
      f55(m, l3 + 32L, Words.get64(b, ((int) (l0 + 8L)) - 58912), Words.get64(b, ((int) (l0 + 16L)) - 58912), Words.get64(b, ((int) (l0 + 24L)) - 58912));
      f54(m, l1, l2, Words.get64(b, ((int) l3) - 58880), Words.get64(b, ((int) l3) - 58872));
      f53(m, l1, l5, l6);
      break L13;
     }
     L18: {
      if (Core1.f31(m, l4, l7, 77241L, 4L) == 0) { break L18; }
      l4 = Words.get64(b, ((int) (l0 + 48L)) - 58912);
      l7 = Words.get64(b, ((int) (l0 + 40L)) - 58912);
      l2 = b[((int) l0) - 58912] & 0xff;
      final int t19 = f57(m, l1, l2, 77508L, 10L, l7, l4, f57(m, l1, l2, 77472L, 9L, l7, l4, f56(m, l1, l2, 77352L, 30L, l7, l4, 1) & 1) & 1);
      f53(m, l1, l5, l6);
      break L13;
     }
     L20: {
      if (Core1.f31(m, l4, l7, 77245L, 7L) == 0) { break L20; }
      f53(m, l1, Words.get64(b, ((int) (l0 + 56L)) - 58912), Words.get64(b, ((int) (l0 + 64L)) - 58912));
      f53(m, l1, l5, l6);
      break L13;
     }
     L21: {
      if ((b[((int) (l0 + 32L)) - 58912] & 0xff) != 1) { break L21; }
      f58(m, l1, b[((int) l0) - 58912] & 0xff, Words.get32(b, ((int) (l0 + 36L)) - 58912));
     }
     f53(m, l1, l5, l6);
     break L13;
    }
    f53(m, l1, l4, l5);
   }
   l2 = 1;
   l6 = Words.get64(b, ((int) l3) - 58848);
   l4 = Words.get64(b, ((int) l3) - 58856);
   if ((b[((int) l3) - 58864] & 0xff) == 1) { continue L6; }
   break L6;
  }
  m.g0 = l3 + 208L;
  return;
 }
 throw State.trap();
}

static void f51(State m, long l0, long l1, long l2, long l3) {
 final byte[] b = m.bytes;
 long l4 = 0;
 long l5 = 0;
 long l6 = 0;
 long l7 = 0;
 int l8 = 0;
 int l9 = 0;
 int l10 = 0;
 int l11 = 0;
 int l12 = 0;
 m.g0 = l4 = m.g0 - 32L;
 L1: {
  L2: {
   L3: {
    L4: {
     if ((l5 = l4) < 16L) { break L4; }
     L5: {
      if ((l8 = Words.get32(b, ((int) l1) - 58912)) + Integer.MIN_VALUE > -2147483521) { break L5; }
      Words.put32(b, ((int) l5) - 58887, 0);
      b[((int) l5) - 58888] = (byte) l8;
      Words.put64(b, ((int) l5) - 58904, l2);
      Words.put32(b, ((int) l5) - 58884, 0);
      Words.put64(b, ((int) l5) - 58896, l3);
      L6: {
       if (l3 + Long.MIN_VALUE > -9223372036854775801L) { break L6; }
       l4 = 0L;
       if (l3 == 0L) { break L2; }
       if ((b[((int) l2) - 58912] & 0xff) == (l8 & 255)) { break L2; }
       l4 = l3;
       if (l3 == 1L) { break L2; }
       l4 = 1L;
       if ((b[((int) l2) - 58911] & 0xff) == (l8 & 255)) { break L2; }
       l4 = l3;
       if (l3 == 2L) { break L2; }
       l4 = 2L;
       if ((b[((int) l2) - 58910] & 0xff) == (l8 & 255)) { break L2; }
       l4 = l3;
       if (l3 == 3L) { break L2; }
       l4 = 3L;
       if ((b[((int) l2) - 58909] & 0xff) == (l8 & 255)) { break L2; }
       l4 = l3;
       if (l3 == 4L) { break L2; }
       l4 = 4L;
       if ((b[((int) l2) - 58908] & 0xff) == (l8 & 255)) { break L2; }
       l4 = l3;
       if (l3 == 5L) { break L2; }
       l4 = 5L;
       if ((b[((int) l2) - 58907] & 0xff) == (l8 & 255)) { break L2; }
       l4 = l3;
       if (l3 == 6L) { break L2; }
       l4 = ((b[((int) l2) - 58906] & 0xff) == (l8 & 255)) ? 6L : l3;
       break L2;
      }
      L7: {
       if ((l4 = ((((l4 = Words.get64(b, ((int) l2) - 58912) ^ (l1 = (l8 & 0xffffffffL) * 72340172838076673L)) & 9187201950435737471L) + 9187201950435737471L) | l4) & -9187201950435737472L) == -9187201950435737472L) { break L7; }
       l4 = ((long) Long.numberOfTrailingZeros(l4 ^ -9187201950435737472L)) >>> 3L;
       break L2;
      }
      l4 = 8L;
      L8: {
       if (l3 + Long.MIN_VALUE < -9223372036854775768L) { break L8; }
       l4 = 8L;
       L9: while (true) {
        if (((((((((l7 = Words.get64(b, ((int) (l6 = l2 + l4)) - 58912) ^ l1) & 9187201950435737471L) + 9187201950435737471L) | l7) & ((((l7 = Words.get64(b, ((int) (l6 + 8L)) - 58912) ^ l1) & 9187201950435737471L) + 9187201950435737471L) | l7)) & ((((l7 = Words.get64(b, ((int) (l6 + 16L)) - 58912) ^ l1) & 9187201950435737471L) + 9187201950435737471L) | l7)) & ((((l6 = Words.get64(b, ((int) (l6 + 24L)) - 58912) ^ l1) & 9187201950435737471L) + 9187201950435737471L) | l6)) & -9187201950435737472L) != -9187201950435737472L) { break L8; }
        if ((l3 - (l4 = f59(m, l5 + 8L, l4 + 32L, l3))) + Long.MIN_VALUE > -9223372036854775777L) { continue L9; }
        break L9;
       }
      }
      l6 = l3 - l4;
      L10: while (true) {
       if (l6 + Long.MIN_VALUE < -9223372036854775799L) { break L3; }
       l6 = l6 + -8L;
       final long t11 = ((long) Long.numberOfTrailingZeros((l7 = ((((l7 = Words.get64(b, ((int) (l2 + l4)) - 58912) ^ l1) & 9187201950435737471L) + 9187201950435737471L) | l7) & -9187201950435737472L) ^ -9187201950435737472L)) >>> 3L;
       final int t12 = (l7 == -9187201950435737472L) ? 1 : 0;
       if (((l7 = t12 != 0 ? 8L : t11) + l4) + Long.MIN_VALUE >= (l4 = l4 + 8L) + Long.MIN_VALUE) { continue L10; }
       break L10;
      }
      l4 = (l7 + l4) + -8L;
      break L2;
     }
     l4 = 0L;
     L13: {
      if (!(l3 == 0L)) { break L13; }
      l1 = 0L;
      break L1;
     }
     L14: while (true) {
      l10 = (l9 = (int) b[((int) (l6 = l2 + l4)) - 58912]) & 255;
      l1 = 1L;
      L15: {
       if (l9 > -1) { break L15; }
       l11 = (b[((int) l6) - 58911] & 0xff) & 63;
       L16: {
        if (l9 + Integer.MIN_VALUE < 2147483616) { break L16; }
        l12 = (b[((int) l6) - 58910] & 0xff) & 63;
        L17: {
         if (l9 + Integer.MIN_VALUE < 2147483632) { break L17; }
         l10 = ((l12 << 6) | ((l11 << 12) | ((l10 << 18) & 1835008))) | ((b[((int) l6) - 58909] & 0xff) & 63);
         l1 = 4L;
         break L15;
        }
        l10 = ((l11 << 6) | ((l10 << 12) & 61440)) | l12;
        l1 = 3L;
        break L15;
       }
       l10 = ((l10 << 6) & 1984) | l11;
       l1 = 2L;
      }
      l1 = l1 + l4;
      if (l10 == l8) { break L1; }
      l4 = l1;
      if (l1 + Long.MIN_VALUE < l3 + Long.MIN_VALUE) { continue L14; }
      break L1;
     }
    }
    throw State.trap();
   }
   final long t18 = ((long) Long.numberOfTrailingZeros((l1 = ((((l1 = Words.get64(b, ((int) (l2 + (l4 = l3 + -8L))) - 58912) ^ l1) & 9187201950435737471L) + 9187201950435737471L) | l1) & -9187201950435737472L) ^ -9187201950435737472L)) >>> 3L;
   final int t19 = (l1 == -9187201950435737472L) ? 1 : 0;
   l4 = (t19 != 0 ? 8L : t18) + l4;
  }
  l1 = l4 + ((l4 + Long.MIN_VALUE < l3 + Long.MIN_VALUE) ? 1L : 0L);
 }
 Words.put64(b, ((int) (l0 + 16L)) - 58912, ((l10 = (l4 + Long.MIN_VALUE < l3 + Long.MIN_VALUE) ? 1 : 0) != 0) ? l1 : 0L);
 Words.put64(b, ((int) (l0 + 8L)) - 58912, l10 != 0 ? l4 : 0L);
 Words.put64(b, ((int) l0) - 58912, l10 & 0xffffffffL);
 m.g0 = l5 + 32L;
}

static int f52_1(State m, long l2, long l3, long l4, long l5, long l6, long l7, long l8, long l9, long l10, long l11, long l12, long l13, long l14, long l15, long l16, long l17, long l18, long l19, long l20, long l21, long l22, long l23, long l24, int l29, int l30, int l31) {
 final byte[] b = m.bytes;
 int exit = 0;
 PART: {
  L10: {
   L11: {
    L12: {
     L13: {
      L14: {
       L15: {
        L16: {
         L17: {
          L18: {
           L19: {
            L20: {
             L21: {
              L22: {
               L23: {
                switch (l29 = b[((int) l2) - 58880] & 0xff) {
                case 1: break L18;
                case 2: break L22;
                case 3: break L23;
                default: break L21;
                }
               }
               final long t24 = 0L - l7;
               final long t25 = l7;
               final int t26 = l30 = (l6 < 0L) ? 1 : 0;
               l8 = t26 != 0 ? t24 : t25;
               final long t27 = 0L - (l6 + ((l7 != 0L) ? 1L : 0L));
               final long t28 = l6;
               final int t29 = l30;
               l7 = t29 != 0 ? t27 : t28;
               break L20;
              }
              l9 = 100L;
              L30: {
               if (((l5 ^ 100L) | l4) == 0L) { break L30; }
               l2 = 0L;
               l10 = 1L;
               L31: while (true) {
                L32: {
                 if (l10 != 37L) { break L32; }
                 final long t33 = 0L - l7;
                 final long t34 = l7;
                 final int t35 = l30 = (l6 < 0L) ? 1 : 0;
                 l8 = t35 != 0 ? t33 : t34;
                 final long t36 = 0L - (l6 + ((l7 != 0L) ? 1L : 0L));
                 final long t37 = l6;
                 final int t38 = l30;
                 l7 = t38 != 0 ? t36 : t37;
                 l2 = l5;
                 l9 = l4;
                 break L10;
                }
                Core1.f3(m, l3 + 800L, l9, 0L, 10L, 0L);
                Core1.f3(m, l3 + 784L, l2, 0L, 0L, 10L);
                if ((((l9 = (l2 = Words.get64(b, ((int) l3) - 58112)) & -2L) ^ l5) | ((l2 = (Words.get64(b, ((int) l3) - 58104) + Words.get64(b, ((int) l3) - 58120)) + (((l2 + Words.get64(b, ((int) l3) - 58128)) + Long.MIN_VALUE < l2 + Long.MIN_VALUE) ? 1L : 0L)) ^ l4)) == 0L) { break L17; }
                Core1.f3(m, l3 + 768L, l9, 0L, 10L, 0L);
                Core1.f3(m, l3 + 752L, l2, 0L, 0L, 10L);
                l10 = l10 + 2L;
                if (!((((l9 = (l2 = Words.get64(b, ((int) l3) - 58144)) & -4L) ^ l5) | ((l2 = (Words.get64(b, ((int) l3) - 58136) + Words.get64(b, ((int) l3) - 58152)) + (((l2 + Words.get64(b, ((int) l3) - 58160)) + Long.MIN_VALUE < l2 + Long.MIN_VALUE) ? 1L : 0L)) ^ l4)) == 0L)) { continue L31; }
                break L31;
               }
               l10 = l10 + -1L;
               break L17;
              }
              final long t39 = 0L - l7;
              final long t40 = l7;
              final int t41 = l30 = (l6 < 0L) ? 1 : 0;
              l8 = t41 != 0 ? t39 : t40;
              final long t42 = 0L - (l6 + ((l7 != 0L) ? 1L : 0L));
              final long t43 = l6;
              final int t44 = l30;
              l7 = t44 != 0 ? t42 : t43;
              exit = 1; break PART;
             }
             l11 = 0L;
             final long t45 = 0L - l7;
             final long t46 = l7;
             final int t47 = l30 = (l6 < 0L) ? 1 : 0;
             l8 = t47 != 0 ? t45 : t46;
             final long t48 = 0L - (l6 + ((l7 != 0L) ? 1L : 0L));
             final long t49 = l6;
             final int t50 = l30;
             l7 = t50 != 0 ? t48 : t49;
             l12 = 1L;
             if (((l5 ^ 1L) | l4) == 0L) { break L19; }
            }
            l2 = l5;
            l9 = l4;
            exit = 2; break PART;
           }
           l13 = 80L;
           exit = 3; break PART;
          }
          l14 = 10L;
          l10 = 1L;
          if (((l5 ^ 10L) | l4) == 0L) { break L17; }
          l9 = 0L;
          l2 = 0L;
          L51: {
           L52: while (true) {
            Core1.f3(m, l3 + 736L, l14, 0L, 10L, 0L);
            Core1.f3(m, l3 + 720L, l9, 0L, 0L, 10L);
            if ((((l14 = (l9 = Words.get64(b, ((int) l3) - 58176)) & -2L) ^ l5) | ((l9 = (Words.get64(b, ((int) l3) - 58168) + Words.get64(b, ((int) l3) - 58184)) + (((l9 + Words.get64(b, ((int) l3) - 58192)) + Long.MIN_VALUE < l9 + Long.MIN_VALUE) ? 1L : 0L)) ^ l4)) == 0L) { break L51; }
            if (l2 == 36L) { break L16; }
            Core1.f3(m, l3 + 704L, l14, 0L, 10L, 0L);
            Core1.f3(m, l3 + 688L, l9, 0L, 0L, 10L);
            l2 = l2 + 2L;
            if (!((((l14 = (l9 = Words.get64(b, ((int) l3) - 58208)) & -4L) ^ l5) | ((l9 = (Words.get64(b, ((int) l3) - 58200) + Words.get64(b, ((int) l3) - 58216)) + (((l9 + Words.get64(b, ((int) l3) - 58224)) + Long.MIN_VALUE < l9 + Long.MIN_VALUE) ? 1L : 0L)) ^ l4)) == 0L)) { continue L52; }
            break L52;
           }
           l2 = l2 + -1L;
          }
          l10 = l2 + 2L;
         }
         final long t53 = 0L - l7;
         final long t54 = l7;
         final int t55 = l30 = (l6 < 0L) ? 1 : 0;
         l15 = t55 != 0 ? t53 : t54;
         final long t56 = 0L - (l6 + ((l7 != 0L) ? 1L : 0L));
         final long t57 = l6;
         final int t58 = l30;
         l16 = t58 != 0 ? t56 : t57;
         l13 = 0L;
         L59: {
          L60: while (true) {
           final long t61 = l16;
           final int t62 = ((l15 | l16) == 0L) ? 1 : 0;
           final long t63 = (long) Long.numberOfLeadingZeros(l16);
           final long t64 = ((long) Long.numberOfLeadingZeros(l15)) + 64L;
           final int t65 = (l16 != 0L) ? 1 : 0;
           final int t66 = ((l17 = 124L - (l2 = t65 != 0 ? t63 : t64)) + Long.MIN_VALUE > -9223372036854775681L) ? 1 : 0;
           final int t67 = ((l18 = 0L - ((l2 + Long.MIN_VALUE > -9223372036854775684L) ? 1L : 0L)) != 0L) ? 1 : 0;
           final int t68 = (l18 == 0L) ? 1 : 0;
           l9 = ((l30 = t62 | (t68 != 0 ? t66 : t67)) != 0) ? 0L : t61;
           l2 = l30 != 0 ? 0L : l15;
           L69: {
            if (l30 != 0) { break L69; }
            if (((l17 ^ 127L) | l18) == 0L) { break L69; }
            Core1.f4(m, l3 + 672L, l15, l16, 127 - ((int) l17));
            l14 = Words.get64(b, ((int) l3) - 58232);
            l2 = Words.get64(b, ((int) l3) - 58240);
            L70: {
             L71: {
              if (((l9 = l17 + 1L) | (l19 = l18 + ((l9 == 0L) ? 1L : 0L))) == 0L) { break L71; }
              Core1.f5(m, l3 + 656L, l15, l16, (int) l9);
              l12 = 10L + -1L;
              l20 = 0L - ((10L == 0L) ? 1L : 0L);
              l17 = Words.get64(b, ((int) l3) - 58248);
              l18 = Words.get64(b, ((int) l3) - 58256);
              l21 = 0L;
              L72: while (true) {
               l22 = l21;
               l21 = (l18 = ((l20 - (l23 = (l17 << 1L) | (l18 >>> 63L))) - ((l12 + Long.MIN_VALUE < (l17 = (l18 << 1L) | (l14 >>> 63L)) + Long.MIN_VALUE) ? 1L : 0L)) >> 63L) & 1L;
               l18 = l17 - (l11 = l18 & 10L);
               l17 = l23 - ((l17 + Long.MIN_VALUE < l11 + Long.MIN_VALUE) ? 1L : 0L);
               l14 = 0L | ((l14 << 1L) | (l2 >>> 63L));
               l30 = (l9 == 0L) ? 1 : 0;
               l2 = l22 | (l2 << 1L);
               l9 = l22 = l9 + -1L;
               if (!((l22 | (l19 = l19 - (l30 & 0xffffffffL))) == 0L)) { continue L72; }
               break L70;
              }
             }
             l21 = 0L;
            }
            l9 = (l14 << 1L) | (l2 >>> 63L);
            l2 = l21 | (l2 << 1L);
           }
           l18 = 0L;
           Core1.f3(m, l3 + 640L, l2, l9, 10L, 0L);
           if (((l15 - (l14 = Words.get64(b, ((int) l3) - 58272))) | ((l16 - Words.get64(b, ((int) l3) - 58264)) - ((l15 + Long.MIN_VALUE < l14 + Long.MIN_VALUE) ? 1L : 0L))) != 0L) { break L59; }
           l15 = l2;
           l16 = l9;
           if ((l13 = l13 + 1L) != l10) { continue L60; }
           break L60;
          }
          l13 = l10;
         }
         l12 = 1L;
         L73: {
          L74: {
           L75: {
            switch ((int) (l13 & 4294967295L)) {
            case 0: break L73;
            case 1: break L74;
            default: break L75;
            }
           }
           l30 = (int) l13;
           l2 = 10L;
           l14 = 1L;
           l18 = 0L;
           l9 = 0L;
           L76: while (true) {
            Core1.f3(m, l3 + 608L, ((l31 = l30 & 1) != 0) ? l2 : 1L, l31 != 0 ? l9 : 0L, l14, l18);
            Core1.f3(m, l3 + 624L, l2, l9, l2, l9);
            l31 = (l30 + Integer.MIN_VALUE > -2147483645) ? 1 : 0;
            l9 = Words.get64(b, ((int) l3) - 58280);
            l2 = Words.get64(b, ((int) l3) - 58288);
            l18 = Words.get64(b, ((int) l3) - 58296);
            l14 = Words.get64(b, ((int) l3) - 58304);
            l30 = l30 >>> 1;
            if (l31 != 0) { continue L76; }
            break L76;
           }
           Core1.f3(m, l3 + 592L, l14, l18, l2, l9);
           if (((l12 = Words.get64(b, ((int) l3) - 58320)) | (l18 = Words.get64(b, ((int) l3) - 58312))) != 0L) { break L73; }
           exit = 4; break PART;
          }
          l12 = 10L;
         }
         final long t77 = 0L - (l6 + ((l7 != 0L) ? 1L : 0L));
         final long t78 = l6;
         final int t79 = l30 = (l6 < 0L) ? 1 : 0;
         final long t80 = l17 = t79 != 0 ? t77 : t78;
         final long t81 = 0L - l12;
         final long t82 = l12;
         final int t83 = l31 = (l18 < 0L) ? 1 : 0;
         final long t84 = l15 = t83 != 0 ? t81 : t82;
         final long t85 = 0L - (l18 + ((l12 != 0L) ? 1L : 0L));
         final long t86 = l18;
         final int t87 = l31;
         final int t88 = ((t84 | (l20 = t87 != 0 ? t85 : t86)) == 0L) ? 1 : 0;
         final long t89 = l17;
         final long t90 = 0L - l7;
         final long t91 = l7;
         final int t92 = l30;
         final int t93 = t88 | (((t89 | (l21 = t92 != 0 ? t90 : t91)) == 0L) ? 1 : 0);
         final long t94 = (long) Long.numberOfLeadingZeros(l20);
         final long t95 = ((long) Long.numberOfLeadingZeros(l15)) + 64L;
         final int t96 = (l20 != 0L) ? 1 : 0;
         final long t97 = l2 = t96 != 0 ? t94 : t95;
         final long t98 = (long) Long.numberOfLeadingZeros(l17);
         final long t99 = ((long) Long.numberOfLeadingZeros(l21)) + 64L;
         final int t100 = (l17 != 0L) ? 1 : 0;
         final int t101 = ((l9 = t97 - (l14 = t100 != 0 ? t98 : t99)) + Long.MIN_VALUE > -9223372036854775681L) ? 1 : 0;
         final int t102 = ((l19 = 0L - ((l2 + Long.MIN_VALUE < l14 + Long.MIN_VALUE) ? 1L : 0L)) != 0L) ? 1 : 0;
         final int t103 = (l19 == 0L) ? 1 : 0;
         l14 = ((l30 = t93 | (t103 != 0 ? t101 : t102)) != 0) ? 0L : t80;
         l22 = l30 != 0 ? 0L : l21;
         l7 = (l18 ^ l6) >> 63L;
         if (l30 != 0) { break L14; }
         if (((l9 ^ 127L) | l19) == 0L) { break L14; }
         Core1.f4(m, l3 + 576L, l21, l17, 127 - ((int) l9));
         l14 = Words.get64(b, ((int) l3) - 58328);
         l2 = Words.get64(b, ((int) l3) - 58336);
         L104: {
          if (((l9 = l9 + 1L) | (l19 = l19 + ((l9 == 0L) ? 1L : 0L))) == 0L) { break L104; }
          Core1.f5(m, l3 + 560L, l21, l17, (int) l9);
          l16 = l15 + -1L;
          l8 = l20 - ((l15 == 0L) ? 1L : 0L);
          l22 = Words.get64(b, ((int) l3) - 58344);
          l17 = Words.get64(b, ((int) l3) - 58352);
          l21 = 0L;
          L105: while (true) {
           l23 = l21;
           l22 = ((l21 = (l22 << 1L) | (l17 >>> 63L)) - ((l21 = ((l8 - l21) - ((l16 + Long.MIN_VALUE < (l17 = (l17 << 1L) | (l14 >>> 63L)) + Long.MIN_VALUE) ? 1L : 0L)) >> 63L) & l20)) - ((l17 + Long.MIN_VALUE < (l11 = l21 & l15) + Long.MIN_VALUE) ? 1L : 0L);
           l21 = l21 & 1L;
           l17 = l17 - l11;
           l14 = 0L | ((l14 << 1L) | (l2 >>> 63L));
           l30 = (l9 == 0L) ? 1 : 0;
           l2 = l23 | (l2 << 1L);
           l9 = l23 = l9 + -1L;
           if (!((l23 | (l19 = l19 - (l30 & 0xffffffffL))) == 0L)) { continue L105; }
           break L15;
          }
         }
         l21 = 0L;
         break L15;
        }
        final long t106 = 0L - l7;
        final long t107 = l7;
        final int t108 = l30 = (l6 < 0L) ? 1 : 0;
        l8 = t108 != 0 ? t106 : t107;
        final long t109 = 0L - (l6 + ((l7 != 0L) ? 1L : 0L));
        final long t110 = l6;
        final int t111 = l30;
        l7 = t111 != 0 ? t109 : t110;
        l2 = l5;
        l9 = l4;
        break L13;
       }
       l14 = (l14 << 1L) | (l2 >>> 63L);
       l22 = l21 | (l2 << 1L);
      }
      final long t112 = l4;
      final int t113 = (((l12 | l18) == 0L) | ((l5 | l4) == 0L)) ? 1 : 0;
      final long t114 = (long) Long.numberOfLeadingZeros(l18);
      final long t115 = ((long) Long.numberOfLeadingZeros(l12)) + 64L;
      final int t116 = (l18 != 0L) ? 1 : 0;
      final long t117 = l2 = t116 != 0 ? t114 : t115;
      final long t118 = (long) Long.numberOfLeadingZeros(l4);
      final long t119 = ((long) Long.numberOfLeadingZeros(l5)) + 64L;
      final int t120 = (l4 != 0L) ? 1 : 0;
      final int t121 = ((l21 = t117 - (l9 = t120 != 0 ? t118 : t119)) + Long.MIN_VALUE > -9223372036854775681L) ? 1 : 0;
      final int t122 = ((l17 = 0L - ((l2 + Long.MIN_VALUE < l9 + Long.MIN_VALUE) ? 1L : 0L)) != 0L) ? 1 : 0;
      final int t123 = (l17 == 0L) ? 1 : 0;
      l9 = ((l30 = t113 | (t123 != 0 ? t121 : t122)) != 0) ? 0L : t112;
      l2 = l30 != 0 ? 0L : l5;
      l6 = ((l14 ^ l7) - l7) - (((l14 = l22 ^ l7) + Long.MIN_VALUE < l7 + Long.MIN_VALUE) ? 1L : 0L);
      l16 = l14 - l7;
      L124: {
       if (l30 != 0) { break L124; }
       if (((l21 ^ 127L) | l17) == 0L) { break L124; }
       Core1.f4(m, l3 + 544L, l5, l4, 127 - ((int) l21));
       l14 = Words.get64(b, ((int) l3) - 58360);
       l2 = Words.get64(b, ((int) l3) - 58368);
       L125: {
        L126: {
         if (((l9 = l21 + 1L) | (l19 = l17 + ((l9 == 0L) ? 1L : 0L))) == 0L) { break L126; }
         Core1.f5(m, l3 + 528L, l5, l4, (int) l9);
         l20 = l12 + -1L;
         l15 = l18 - ((l12 == 0L) ? 1L : 0L);
         l22 = Words.get64(b, ((int) l3) - 58376);
         l17 = Words.get64(b, ((int) l3) - 58384);
         l21 = 0L;
         L127: while (true) {
          l23 = l21;
          l22 = ((l21 = (l22 << 1L) | (l17 >>> 63L)) - ((l21 = ((l15 - l21) - ((l20 + Long.MIN_VALUE < (l17 = (l17 << 1L) | (l14 >>> 63L)) + Long.MIN_VALUE) ? 1L : 0L)) >> 63L) & l18)) - ((l17 + Long.MIN_VALUE < (l11 = l21 & l12) + Long.MIN_VALUE) ? 1L : 0L);
          l21 = l21 & 1L;
          l17 = l17 - l11;
          l14 = 0L | ((l14 << 1L) | (l2 >>> 63L));
          l30 = (l9 == 0L) ? 1 : 0;
          l2 = l23 | (l2 << 1L);
          l9 = l23 = l9 + -1L;
          if (!((l23 | (l19 = l19 - (l30 & 0xffffffffL))) == 0L)) { continue L127; }
          break L125;
         }
        }
        l21 = 0L;
       }
       l9 = (l14 << 1L) | (l2 >>> 63L);
       l2 = l21 | (l2 << 1L);
      }
      l11 = 0L;
      final long t128 = 0L - l16;
      final long t129 = l16;
      final int t130 = l30 = (l6 < 0L) ? 1 : 0;
      l8 = t130 != 0 ? t128 : t129;
      final long t131 = 0L - (l6 + ((l16 != 0L) ? 1L : 0L));
      final long t132 = l6;
      final int t133 = l30;
      l7 = t133 != 0 ? t131 : t132;
      final int t134 = l29;
      final int t135 = (l10 != l13) ? 1 : 0;
      final int t136 = ((l29 & 254) == 2) ? 1 : 0;
      switch (t136 != 0 ? t134 : t135) {
      case 1: break L13;
      case 2: break L10;
      case 3: exit = 2; break PART;
      default: break L12;
      }
     }
     l17 = 10L;
     if (!(((l2 ^ 10L) | l9) == 0L)) { break L11; }
     l24 = 1L;
     l10 = 80L;
     exit = 5; break PART;
    }
    l12 = 1L;
    if (!(((l2 ^ 1L) | l9) == 0L)) { exit = 2; break PART; }
    l13 = 80L;
    exit = 3; break PART;
   }
   l18 = 0L;
   l14 = 0L;
   L137: {
    L138: while (true) {
     Core1.f3(m, l3 + 448L, l17, 0L, 10L, 0L);
     Core1.f3(m, l3 + 432L, l18, 0L, 0L, 10L);
     if ((((l17 = (l18 = Words.get64(b, ((int) l3) - 58464)) & -2L) ^ l2) | ((l18 = (Words.get64(b, ((int) l3) - 58456) + Words.get64(b, ((int) l3) - 58472)) + (((l18 + Words.get64(b, ((int) l3) - 58480)) + Long.MIN_VALUE < l18 + Long.MIN_VALUE) ? 1L : 0L)) ^ l9)) == 0L) { break L137; }
     if (l14 == 36L) { exit = 2; break PART; }
     Core1.f3(m, l3 + 416L, l17, 0L, 10L, 0L);
     Core1.f3(m, l3 + 400L, l18, 0L, 0L, 10L);
     l14 = l14 + 2L;
     if (!((((l17 = (l18 = Words.get64(b, ((int) l3) - 58496)) & -4L) ^ l2) | ((l18 = (Words.get64(b, ((int) l3) - 58488) + Words.get64(b, ((int) l3) - 58504)) + (((l18 + Words.get64(b, ((int) l3) - 58512)) + Long.MIN_VALUE < l18 + Long.MIN_VALUE) ? 1L : 0L)) ^ l9)) == 0L)) { continue L138; }
     break L138;
    }
    l14 = l14 + -1L;
   }
   l24 = l14 + 2L;
   l30 = 0;
   exit = 6; break PART;
  }
 }
 m.kept[0] = l2;
 m.kept[1] = l6;
 m.kept[2] = l7;
 m.kept[3] = l8;
 m.kept[4] = l9;
 m.kept[5] = l10;
 m.kept[6] = l11;
 m.kept[7] = l12;
 m.kept[8] = l13;
 m.kept[9] = l14;
 m.kept[10] = l15;
 m.kept[11] = l16;
 m.kept[12] = l17;
 m.kept[13] = l18;
 m.kept[14] = l19;
 m.kept[15] = l20;
 m.kept[16] = l21;
 m.kept[17] = l22;
 m.kept[18] = l23;
 m.kept[19] = l24;
 m.kept[20] = l29;
 m.kept[21] = l30;
 m.kept[22] = l31;
 return exit;
}

static int f52_2(State m, long l1, long l2, long l3, long l4, long l5, long l7, long l8, long l9, long l10, long l11, long l12, long l13, long l14, long l15, long l16, long l17, long l18, long l19, long l20, long l21, long l22, long l23, long l24, long l25, long l26, long l27, long l28, int l30, int l31) {
 final byte[] b = m.bytes;
 int exit = 0;
 PART: {
  L160: {
   L161: {
    L162: {
     if (l24 != 1L) { break L162; }
     l2 = l8;
     l14 = l7;
     break L161;
    }
    l25 = l24 & 1L;
    l26 = l24 & -2L;
    l2 = l8;
    l14 = l7;
    l4 = 0L;
    L163: while (true) {
     final long t164 = l15 = l14;
     final int t165 = l31 = ((l15 | (l13 = l2)) == 0L) ? 1 : 0;
     final long t166 = l5 = (long) Long.numberOfLeadingZeros(l15);
     final long t167 = (l27 = (long) Long.numberOfLeadingZeros(l13)) + 64L;
     final int t168 = (l15 != 0L) ? 1 : 0;
     final int t169 = ((l9 = 124L - (l2 = t168 != 0 ? t166 : t167)) + Long.MIN_VALUE > -9223372036854775681L) ? 1 : 0;
     final int t170 = ((l17 = 0L - ((l2 + Long.MIN_VALUE > -9223372036854775684L) ? 1L : 0L)) != 0L) ? 1 : 0;
     final int t171 = (l17 == 0L) ? 1 : 0;
     l18 = ((l30 = t165 | (t171 != 0 ? t169 : t170)) != 0) ? 0L : t164;
     l16 = l30 != 0 ? 0L : l13;
     L172: {
      if (l30 != 0) { break L172; }
      if (((l9 ^ 127L) | l17) == 0L) { break L172; }
      Core1.f4(m, l3 + 384L, l13, l15, 127 - ((int) l9));
      l14 = Words.get64(b, ((int) l3) - 58520);
      l2 = Words.get64(b, ((int) l3) - 58528);
      L173: {
       L174: {
        if (((l9 = l9 + 1L) | (l19 = l17 + ((l9 == 0L) ? 1L : 0L))) == 0L) { break L174; }
        Core1.f5(m, l3 + 368L, l13, l15, (int) l9);
        l12 = 10L + -1L;
        l20 = 0L - ((10L == 0L) ? 1L : 0L);
        l17 = Words.get64(b, ((int) l3) - 58536);
        l18 = Words.get64(b, ((int) l3) - 58544);
        l21 = 0L;
        L175: while (true) {
         l22 = l21;
         l21 = (l18 = ((l20 - (l23 = (l17 << 1L) | (l18 >>> 63L))) - ((l12 + Long.MIN_VALUE < (l17 = (l18 << 1L) | (l14 >>> 63L)) + Long.MIN_VALUE) ? 1L : 0L)) >> 63L) & 1L;
         l18 = l17 - (l11 = l18 & 10L);
         l17 = l23 - ((l17 + Long.MIN_VALUE < l11 + Long.MIN_VALUE) ? 1L : 0L);
         l14 = 0L | ((l14 << 1L) | (l2 >>> 63L));
         l30 = (l9 == 0L) ? 1 : 0;
         l2 = l22 | (l2 << 1L);
         l9 = l22 = l9 + -1L;
         if (!((l22 | (l19 = l19 - (l30 & 0xffffffffL))) == 0L)) { continue L175; }
         break L173;
        }
       }
       l21 = 0L;
      }
      l18 = (l14 << 1L) | (l2 >>> 63L);
      l16 = l21 | (l2 << 1L);
     }
     Core1.f3(m, l3 + 352L, l16, l18, 10L, 0L);
     b[((int) (l1 + (l28 = l10 + -1L))) - 58912] = (byte) (((int) (l13 - Words.get64(b, ((int) l3) - 58560))) | 48);
     final long t176 = l16;
     final int t177 = ((l16 | l18) == 0L) ? 1 : 0;
     final long t178 = (long) Long.numberOfLeadingZeros(l18);
     final long t179 = ((long) Long.numberOfLeadingZeros(l16)) + 64L;
     final int t180 = (l18 != 0L) ? 1 : 0;
     final int t181 = ((l2 = 124L - (l9 = t180 != 0 ? t178 : t179)) + Long.MIN_VALUE > -9223372036854775681L) ? 1 : 0;
     final int t182 = ((l14 = 0L - ((l9 + Long.MIN_VALUE > -9223372036854775684L) ? 1L : 0L)) != 0L) ? 1 : 0;
     final int t183 = (l14 == 0L) ? 1 : 0;
     l9 = ((l30 = t177 | (t183 != 0 ? t181 : t182)) != 0) ? 0L : t176;
     L184: {
      if (l30 != 0) { break L184; }
      if (((l2 ^ 127L) | l14) == 0L) { break L184; }
      Core1.f4(m, l3 + 336L, l16, l18, 127 - ((int) l2));
      l9 = Words.get64(b, ((int) l3) - 58576);
      L185: {
       L186: {
        if (((l2 = l2 + 1L) | (l19 = l14 + ((l2 == 0L) ? 1L : 0L))) == 0L) { break L186; }
        l14 = Words.get64(b, ((int) l3) - 58568);
        Core1.f5(m, l3 + 320L, l16, l18, (int) l2);
        l12 = 10L + -1L;
        l20 = 0L - ((10L == 0L) ? 1L : 0L);
        l17 = Words.get64(b, ((int) l3) - 58584);
        l18 = Words.get64(b, ((int) l3) - 58592);
        l21 = 0L;
        L187: while (true) {
         l22 = l21;
         l21 = (l18 = ((l20 - (l23 = (l17 << 1L) | (l18 >>> 63L))) - ((l12 + Long.MIN_VALUE < (l17 = (l18 << 1L) | (l14 >>> 63L)) + Long.MIN_VALUE) ? 1L : 0L)) >> 63L) & 1L;
         l18 = l17 - (l11 = l18 & 10L);
         l17 = l23 - ((l17 + Long.MIN_VALUE < l11 + Long.MIN_VALUE) ? 1L : 0L);
         l14 = 0L | ((l14 << 1L) | (l9 >>> 63L));
         l30 = (l2 == 0L) ? 1 : 0;
         l9 = l22 | (l9 << 1L);
         l2 = l22 = l2 + -1L;
         if (!((l22 | (l19 = l19 - (l30 & 0xffffffffL))) == 0L)) { continue L187; }
         break L185;
        }
       }
       l21 = 0L;
      }
      l9 = l21 | (l9 << 1L);
     }
     Core1.f3(m, l3 + 304L, 10L, 0L, l9, l3);
     b[((int) (l1 + (l10 = l10 + -2L))) - 58912] = (byte) (((int) (l16 - Words.get64(b, ((int) l3) - 58608))) | 48);
     final long t188 = l15;
     final int t189 = l31;
     final long t190 = l5;
     final long t191 = l27 + 64L;
     final int t192 = (l15 != 0L) ? 1 : 0;
     final int t193 = ((l9 = 121L - (l2 = t192 != 0 ? t190 : t191)) + Long.MIN_VALUE > -9223372036854775681L) ? 1 : 0;
     final int t194 = ((l18 = 0L - ((l2 + Long.MIN_VALUE > -9223372036854775687L) ? 1L : 0L)) != 0L) ? 1 : 0;
     final int t195 = (l18 == 0L) ? 1 : 0;
     l14 = ((l30 = t189 | (t195 != 0 ? t193 : t194)) != 0) ? 0L : t188;
     l2 = l30 != 0 ? 0L : l13;
     L196: {
      if (l30 != 0) { break L196; }
      if (((l9 ^ 127L) | l18) == 0L) { break L196; }
      Core1.f4(m, l3 + 288L, l13, l15, 127 - ((int) l9));
      l14 = Words.get64(b, ((int) l3) - 58616);
      l2 = Words.get64(b, ((int) l3) - 58624);
      L197: {
       L198: {
        if (((l9 = l9 + 1L) | (l19 = l18 + ((l9 == 0L) ? 1L : 0L))) == 0L) { break L198; }
        Core1.f5(m, l3 + 272L, l13, l15, (int) l9);
        l12 = 100L + -1L;
        l20 = 0L - ((100L == 0L) ? 1L : 0L);
        l17 = Words.get64(b, ((int) l3) - 58632);
        l18 = Words.get64(b, ((int) l3) - 58640);
        l21 = 0L;
        L199: while (true) {
         l22 = l21;
         l21 = (l18 = ((l20 - (l23 = (l17 << 1L) | (l18 >>> 63L))) - ((l12 + Long.MIN_VALUE < (l17 = (l18 << 1L) | (l14 >>> 63L)) + Long.MIN_VALUE) ? 1L : 0L)) >> 63L) & 1L;
         l18 = l17 - (l11 = l18 & 100L);
         l17 = l23 - ((l17 + Long.MIN_VALUE < l11 + Long.MIN_VALUE) ? 1L : 0L);
         l14 = 0L | ((l14 << 1L) | (l2 >>> 63L));
         l30 = (l9 == 0L) ? 1 : 0;
         l2 = l22 | (l2 << 1L);
         l9 = l22 = l9 + -1L;
         if (!((l22 | (l19 = l19 - (l30 & 0xffffffffL))) == 0L)) { continue L199; }
         break L197;
        }
       }
       l21 = 0L;
      }
      l14 = (l14 << 1L) | (l2 >>> 63L);
      l2 = l21 | (l2 << 1L);
     }
     if ((l4 = l4 + 2L) != l26) { continue L163; }
     break L163;
    }
    if (l25 == 0L) { break L160; }
   }
   final long t200 = l2;
   final int t201 = ((l2 | l14) == 0L) ? 1 : 0;
   final long t202 = (long) Long.numberOfLeadingZeros(l14);
   final long t203 = ((long) Long.numberOfLeadingZeros(l2)) + 64L;
   final int t204 = (l14 != 0L) ? 1 : 0;
   final int t205 = ((l9 = 124L - (l18 = t204 != 0 ? t202 : t203)) + Long.MIN_VALUE > -9223372036854775681L) ? 1 : 0;
   final int t206 = ((l17 = 0L - ((l18 + Long.MIN_VALUE > -9223372036854775684L) ? 1L : 0L)) != 0L) ? 1 : 0;
   final int t207 = (l17 == 0L) ? 1 : 0;
   l18 = ((l30 = t201 | (t207 != 0 ? t205 : t206)) != 0) ? 0L : t200;
   L208: {
    if (l30 != 0) { break L208; }
    if (((l9 ^ 127L) | l17) == 0L) { break L208; }
    Core1.f4(m, l3 + 256L, l2, l14, 127 - ((int) l9));
    l18 = Words.get64(b, ((int) l3) - 58656);
    L209: {
     L210: {
      if (((l9 = l9 + 1L) | (l22 = l17 + ((l9 == 0L) ? 1L : 0L))) == 0L) { break L210; }
      l17 = Words.get64(b, ((int) l3) - 58648);
      Core1.f5(m, l3 + 240L, l2, l14, (int) l9);
      l20 = 10L + -1L;
      l15 = 0L - ((10L == 0L) ? 1L : 0L);
      l21 = Words.get64(b, ((int) l3) - 58664);
      l14 = Words.get64(b, ((int) l3) - 58672);
      l19 = 0L;
      L211: while (true) {
       l23 = l19;
       l19 = (l14 = ((l15 - (l11 = (l21 << 1L) | (l14 >>> 63L))) - ((l20 + Long.MIN_VALUE < (l21 = (l14 << 1L) | (l17 >>> 63L)) + Long.MIN_VALUE) ? 1L : 0L)) >> 63L) & 1L;
       l14 = l21 - (l12 = l14 & 10L);
       l21 = l11 - ((l21 + Long.MIN_VALUE < l12 + Long.MIN_VALUE) ? 1L : 0L);
       l17 = 0L | ((l17 << 1L) | (l18 >>> 63L));
       l30 = (l9 == 0L) ? 1 : 0;
       l18 = l23 | (l18 << 1L);
       l9 = l23 = l9 + -1L;
       if (!((l23 | (l22 = l22 - (l30 & 0xffffffffL))) == 0L)) { continue L211; }
       break L209;
      }
     }
     l19 = 0L;
    }
    l18 = l19 | (l18 << 1L);
   }
   Core1.f3(m, l3 + 224L, 10L, 0L, l18, l3);
   b[((int) ((l1 + l10) + -1L)) - 58912] = (byte) (((int) (l2 - Words.get64(b, ((int) l3) - 58688))) | 48);
   l28 = l10;
  }
 }
 m.kept[0] = l2;
 m.kept[1] = l4;
 m.kept[2] = l5;
 m.kept[3] = l9;
 m.kept[4] = l10;
 m.kept[5] = l11;
 m.kept[6] = l12;
 m.kept[7] = l13;
 m.kept[8] = l14;
 m.kept[9] = l15;
 m.kept[10] = l16;
 m.kept[11] = l17;
 m.kept[12] = l18;
 m.kept[13] = l19;
 m.kept[14] = l20;
 m.kept[15] = l21;
 m.kept[16] = l22;
 m.kept[17] = l23;
 m.kept[18] = l25;
 m.kept[19] = l26;
 m.kept[20] = l27;
 m.kept[21] = l28;
 m.kept[22] = l30;
 m.kept[23] = l31;
 return exit;
}

static void f52(State m, long l0, long l1, long l2) {
 final byte[] b = m.bytes;
 long l3 = 0;
 long l4 = 0;
 long l5 = 0;
 long l6 = 0;
 long l7 = 0;
 long l8 = 0;
 long l9 = 0;
 long l10 = 0;
 long l11 = 0;
 long l12 = 0;
 long l13 = 0;
 long l14 = 0;
 long l15 = 0;
 long l16 = 0;
 long l17 = 0;
 long l18 = 0;
 long l19 = 0;
 long l20 = 0;
 long l21 = 0;
 long l22 = 0;
 long l23 = 0;
 long l24 = 0;
 long l25 = 0;
 long l26 = 0;
 long l27 = 0;
 long l28 = 0;
 int l29 = 0;
 int l30 = 0;
 int l31 = 0;
 m.g0 = l3 = m.g0 - 816L;
 L1: {
  L2: {
   L3: {
    if ((l3 = l3) < 16L) { break L3; }
    l4 = Words.get64(b, ((int) l2) - 58888);
    l5 = Words.get64(b, ((int) l2) - 58896);
    l6 = Words.get64(b, ((int) l2) - 58904);
    l7 = Words.get64(b, ((int) l2) - 58912);
    L4: {
     L5: {
      L6: {
       L7: {
        L8: {
         L9: {
          final int x139 = f52_1(m, l2, l3, l4, l5, l6, l7, l8, l9, l10, l11, l12, l13, l14, l15, l16, l17, l18, l19, l20, l21, l22, l23, l24, l29, l30, l31);
          l2 = m.kept[0];
          l6 = m.kept[1];
          l7 = m.kept[2];
          l8 = m.kept[3];
          l9 = m.kept[4];
          l10 = m.kept[5];
          l11 = m.kept[6];
          l12 = m.kept[7];
          l13 = m.kept[8];
          l14 = m.kept[9];
          l15 = m.kept[10];
          l16 = m.kept[11];
          l17 = m.kept[12];
          l18 = m.kept[13];
          l19 = m.kept[14];
          l20 = m.kept[15];
          l21 = m.kept[16];
          l22 = m.kept[17];
          l23 = m.kept[18];
          l24 = m.kept[19];
          l29 = (int) m.kept[20];
          l30 = (int) m.kept[21];
          l31 = (int) m.kept[22];
          switch (x139) {
          case 1: break L5;
          case 2: break L8;
          case 3: break L4;
          case 4: break L3;
          case 5: break L6;
          case 6: break L9;
          }
          l18 = 100L;
          if (((l2 ^ 100L) | l9) == 0L) { break L5; }
          l14 = 0L;
          l24 = 1L;
          L140: while (true) {
           if (l24 == 37L) { break L8; }
           Core1.f3(m, l3 + 512L, l18, 0L, 10L, 0L);
           Core1.f3(m, l3 + 496L, l14, 0L, 0L, 10L);
           l30 = 1;
           if ((((l18 = (l14 = Words.get64(b, ((int) l3) - 58400)) & -2L) ^ l2) | ((l14 = (Words.get64(b, ((int) l3) - 58392) + Words.get64(b, ((int) l3) - 58408)) + (((l14 + Words.get64(b, ((int) l3) - 58416)) + Long.MIN_VALUE < l14 + Long.MIN_VALUE) ? 1L : 0L)) ^ l9)) == 0L) { break L9; }
           Core1.f3(m, l3 + 480L, l18, 0L, 10L, 0L);
           Core1.f3(m, l3 + 464L, l14, 0L, 0L, 10L);
           l24 = l24 + 2L;
           if (!((((l18 = (l14 = Words.get64(b, ((int) l3) - 58432)) & -4L) ^ l2) | ((l14 = (Words.get64(b, ((int) l3) - 58424) + Words.get64(b, ((int) l3) - 58440)) + (((l14 + Words.get64(b, ((int) l3) - 58448)) + Long.MIN_VALUE < l14 + Long.MIN_VALUE) ? 1L : 0L)) ^ l9)) == 0L)) { continue L140; }
           break L140;
          }
          l24 = l24 + -1L;
         }
         if (l30 != 0) { break L7; }
         l10 = 80L;
         break L6;
        }
        L141: {
         final int t142 = (l2 + Long.MIN_VALUE < -9223372036854775798L) ? 1 : 0;
         final int t143 = (l9 == 0L) ? 1 : 0;
         if ((t143 != 0 ? t142 : 0) != 0) { break L141; }
         l13 = 80L;
         L144: while (true) {
          final long t145 = l15 = l9;
          final int t146 = ((l15 | (l16 = l2)) == 0L) ? 1 : 0;
          final long t147 = (long) Long.numberOfLeadingZeros(l15);
          final long t148 = ((long) Long.numberOfLeadingZeros(l16)) + 64L;
          final int t149 = l31 = (l15 != 0L) ? 1 : 0;
          final int t150 = ((l17 = 124L - (l2 = t149 != 0 ? t147 : t148)) + Long.MIN_VALUE > -9223372036854775681L) ? 1 : 0;
          final int t151 = ((l18 = 0L - ((l2 + Long.MIN_VALUE > -9223372036854775684L) ? 1L : 0L)) != 0L) ? 1 : 0;
          final int t152 = (l18 == 0L) ? 1 : 0;
          l9 = ((l30 = t146 | (t152 != 0 ? t150 : t151)) != 0) ? 0L : t145;
          l2 = l30 != 0 ? 0L : l16;
          L153: {
           if (l30 != 0) { break L153; }
           if (((l17 ^ 127L) | l18) == 0L) { break L153; }
           Core1.f4(m, l3 + 160L, l16, l15, 127 - ((int) l17));
           l14 = Words.get64(b, ((int) l3) - 58744);
           l2 = Words.get64(b, ((int) l3) - 58752);
           L154: {
            L155: {
             if (((l9 = l17 + 1L) | (l19 = l18 + ((l9 == 0L) ? 1L : 0L))) == 0L) { break L155; }
             Core1.f5(m, l3 + 144L, l16, l15, (int) l9);
             l12 = 10L + -1L;
             l20 = 0L - ((10L == 0L) ? 1L : 0L);
             l17 = Words.get64(b, ((int) l3) - 58760);
             l18 = Words.get64(b, ((int) l3) - 58768);
             l21 = 0L;
             L156: while (true) {
              l22 = l21;
              l21 = (l18 = ((l20 - (l23 = (l17 << 1L) | (l18 >>> 63L))) - ((l12 + Long.MIN_VALUE < (l17 = (l18 << 1L) | (l14 >>> 63L)) + Long.MIN_VALUE) ? 1L : 0L)) >> 63L) & 1L;
              l18 = l17 - (l11 = l18 & 10L);
              l17 = l23 - ((l17 + Long.MIN_VALUE < l11 + Long.MIN_VALUE) ? 1L : 0L);
              l14 = 0L | ((l14 << 1L) | (l2 >>> 63L));
              l30 = (l9 == 0L) ? 1 : 0;
              l2 = l22 | (l2 << 1L);
              l9 = l22 = l9 + -1L;
              if (!((l22 | (l19 = l19 - (l30 & 0xffffffffL))) == 0L)) { continue L156; }
              break L154;
             }
            }
            l21 = 0L;
           }
           l9 = (l14 << 1L) | (l2 >>> 63L);
           l2 = l21 | (l2 << 1L);
          }
          Core1.f3(m, l3 + 128L, l2, l3, 10L, 0L);
          b[((int) (l1 + (l13 = l13 + -1L))) - 58912] = (byte) (((int) (l16 - Words.get64(b, ((int) l3) - 58784))) | 48);
          final int t157 = (l16 + Long.MIN_VALUE > -9223372036854775709L) ? 1 : 0;
          final int t158 = l31;
          final int t159 = (l15 == 0L) ? 1 : 0;
          if ((t159 != 0 ? t157 : t158) != 0) { continue L144; }
          break L144;
         }
         l30 = (int) l2;
         break L2;
        }
        l30 = (int) l2;
        l13 = 80L;
        break L2;
       }
       l10 = 79L;
       b[((int) (l1 + 79L)) - 58912] = (byte) 37;
      }
      f52_2(m, l1, l2, l3, l4, l5, l7, l8, l9, l10, l11, l12, l13, l14, l15, l16, l17, l18, l19, l20, l21, l22, l23, l24, l25, l26, l27, l28, l30, l31);
      l2 = m.kept[0];
      l4 = m.kept[1];
      l5 = m.kept[2];
      l9 = m.kept[3];
      l10 = m.kept[4];
      l11 = m.kept[5];
      l12 = m.kept[6];
      l13 = m.kept[7];
      l14 = m.kept[8];
      l15 = m.kept[9];
      l16 = m.kept[10];
      l17 = m.kept[11];
      l18 = m.kept[12];
      l19 = m.kept[13];
      l20 = m.kept[14];
      l21 = m.kept[15];
      l22 = m.kept[16];
      l23 = m.kept[17];
      l25 = m.kept[18];
      l26 = m.kept[19];
      l27 = m.kept[20];
      l28 = m.kept[21];
      l30 = (int) m.kept[22];
      l31 = (int) m.kept[23];
      b[((int) (l1 + (l13 = l28 + -2L))) - 58912] = (byte) 46;
      l11 = 0L;
      l12 = 1L;
      L213: {
       L214: {
        switch ((int) (l24 & 4294967295L)) {
        case 0: break L4;
        case 1: break L214;
        default: break L213;
        }
       }
       l12 = 10L;
       break L4;
      }
      l30 = (int) l24;
      l2 = 10L;
      l14 = 1L;
      l18 = 0L;
      l9 = 0L;
      L215: while (true) {
       Core1.f3(m, l3 + 192L, ((l31 = l30 & 1) != 0) ? l2 : 1L, l31 != 0 ? l9 : 0L, l14, l18);
       Core1.f3(m, l3 + 208L, l2, l9, l2, l9);
       l31 = (l30 + Integer.MIN_VALUE > -2147483645) ? 1 : 0;
       l9 = Words.get64(b, ((int) l3) - 58696);
       l2 = Words.get64(b, ((int) l3) - 58704);
       l18 = Words.get64(b, ((int) l3) - 58712);
       l14 = Words.get64(b, ((int) l3) - 58720);
       l30 = l30 >>> 1;
       if (l31 != 0) { continue L215; }
       break L215;
      }
      Core1.f3(m, l3 + 176L, l14, l18, l2, l9);
      if (((l12 = Words.get64(b, ((int) l3) - 58736)) | (l11 = Words.get64(b, ((int) l3) - 58728))) == 0L) { break L3; }
      break L4;
     }
     l13 = 79L;
     b[((int) (l1 + 79L)) - 58912] = (byte) 37;
     l11 = 0L;
     l12 = 1L;
    }
    final long t216 = l7;
    final int t217 = (((l12 | l11) == 0L) | ((l8 | l7) == 0L)) ? 1 : 0;
    final long t218 = (long) Long.numberOfLeadingZeros(l11);
    final long t219 = ((long) Long.numberOfLeadingZeros(l12)) + 64L;
    final int t220 = (l11 != 0L) ? 1 : 0;
    final long t221 = l2 = t220 != 0 ? t218 : t219;
    final long t222 = (long) Long.numberOfLeadingZeros(l7);
    final long t223 = ((long) Long.numberOfLeadingZeros(l8)) + 64L;
    final int t224 = (l7 != 0L) ? 1 : 0;
    final int t225 = ((l9 = t221 - (l14 = t224 != 0 ? t222 : t223)) + Long.MIN_VALUE > -9223372036854775681L) ? 1 : 0;
    final int t226 = ((l18 = 0L - ((l2 + Long.MIN_VALUE < l14 + Long.MIN_VALUE) ? 1L : 0L)) != 0L) ? 1 : 0;
    final int t227 = (l18 == 0L) ? 1 : 0;
    l14 = ((l30 = t217 | (t227 != 0 ? t225 : t226)) != 0) ? 0L : t216;
    l2 = l30 != 0 ? 0L : l8;
    L228: {
     if (l30 != 0) { break L228; }
     if (((l9 ^ 127L) | l18) == 0L) { break L228; }
     Core1.f4(m, l3 + 64L, l8, l7, 127 - ((int) l9));
     l14 = Words.get64(b, ((int) l3) - 58840);
     l2 = Words.get64(b, ((int) l3) - 58848);
     L229: {
      L230: {
       if (((l9 = l9 + 1L) | (l21 = l18 + ((l9 == 0L) ? 1L : 0L))) == 0L) { break L230; }
       Core1.f5(m, l3 + 48L, l8, l7, (int) l9);
       l20 = l12 + -1L;
       l15 = l11 - ((l12 == 0L) ? 1L : 0L);
       l19 = Words.get64(b, ((int) l3) - 58856);
       l18 = Words.get64(b, ((int) l3) - 58864);
       l17 = 0L;
       L231: while (true) {
        l22 = l17;
        l19 = ((l17 = (l19 << 1L) | (l18 >>> 63L)) - ((l17 = ((l15 - l17) - ((l20 + Long.MIN_VALUE < (l18 = (l18 << 1L) | (l14 >>> 63L)) + Long.MIN_VALUE) ? 1L : 0L)) >> 63L) & l11)) - ((l18 + Long.MIN_VALUE < (l23 = l17 & l12) + Long.MIN_VALUE) ? 1L : 0L);
        l17 = l17 & 1L;
        l18 = l18 - l23;
        l14 = 0L | ((l14 << 1L) | (l2 >>> 63L));
        l30 = (l9 == 0L) ? 1 : 0;
        l2 = l22 | (l2 << 1L);
        l9 = l22 = l9 + -1L;
        if (!((l22 | (l21 = l21 - (l30 & 0xffffffffL))) == 0L)) { continue L231; }
        break L229;
       }
      }
      l17 = 0L;
     }
     l14 = (l14 << 1L) | (l2 >>> 63L);
     l2 = l17 | (l2 << 1L);
    }
    L232: {
     final int t233 = (l2 + Long.MIN_VALUE < -9223372036854775798L) ? 1 : 0;
     final int t234 = (l14 == 0L) ? 1 : 0;
     if ((t234 != 0 ? t233 : 0) != 0) { break L232; }
     L235: while (true) {
      final long t236 = l15 = l14;
      final int t237 = ((l15 | (l16 = l2)) == 0L) ? 1 : 0;
      final long t238 = (long) Long.numberOfLeadingZeros(l15);
      final long t239 = ((long) Long.numberOfLeadingZeros(l16)) + 64L;
      final int t240 = l31 = (l15 != 0L) ? 1 : 0;
      final int t241 = ((l9 = 124L - (l2 = t240 != 0 ? t238 : t239)) + Long.MIN_VALUE > -9223372036854775681L) ? 1 : 0;
      final int t242 = ((l18 = 0L - ((l2 + Long.MIN_VALUE > -9223372036854775684L) ? 1L : 0L)) != 0L) ? 1 : 0;
      final int t243 = (l18 == 0L) ? 1 : 0;
      l14 = ((l30 = t237 | (t243 != 0 ? t241 : t242)) != 0) ? 0L : t236;
      l2 = l30 != 0 ? 0L : l16;
      L244: {
       if (l30 != 0) { break L244; }
       if (((l9 ^ 127L) | l18) == 0L) { break L244; }
       Core1.f4(m, l3 + 32L, l16, l15, 127 - ((int) l9));
       l14 = Words.get64(b, ((int) l3) - 58872);
       l2 = Words.get64(b, ((int) l3) - 58880);
       L245: {
        L246: {
         if (((l9 = l9 + 1L) | (l19 = l18 + ((l9 == 0L) ? 1L : 0L))) == 0L) { break L246; }
         Core1.f5(m, l3 + 16L, l16, l15, (int) l9);
         l12 = 10L + -1L;
         l20 = 0L - ((10L == 0L) ? 1L : 0L);
         l17 = Words.get64(b, ((int) l3) - 58888);
         l18 = Words.get64(b, ((int) l3) - 58896);
         l21 = 0L;
         L247: while (true) {
          l22 = l21;
          l21 = (l18 = ((l20 - (l23 = (l17 << 1L) | (l18 >>> 63L))) - ((l12 + Long.MIN_VALUE < (l17 = (l18 << 1L) | (l14 >>> 63L)) + Long.MIN_VALUE) ? 1L : 0L)) >> 63L) & 1L;
          l18 = l17 - (l11 = l18 & 10L);
          l17 = l23 - ((l17 + Long.MIN_VALUE < l11 + Long.MIN_VALUE) ? 1L : 0L);
          l14 = 0L | ((l14 << 1L) | (l2 >>> 63L));
          l30 = (l9 == 0L) ? 1 : 0;
          l2 = l22 | (l2 << 1L);
          l9 = l22 = l9 + -1L;
          if (!((l22 | (l19 = l19 - (l30 & 0xffffffffL))) == 0L)) { continue L247; }
          break L245;
         }
        }
        l21 = 0L;
       }
       l14 = (l14 << 1L) | (l2 >>> 63L);
       l2 = l21 | (l2 << 1L);
      }
      Core1.f3(m, l3, l2, l3, 10L, 0L);
      b[((int) (l1 + (l13 = l13 + -1L))) - 58912] = (byte) (((int) (l16 - Words.get64(b, ((int) l3) - 58912))) | 48);
      final int t248 = (l16 + Long.MIN_VALUE > -9223372036854775709L) ? 1 : 0;
      final int t249 = l31;
      final int t250 = (l15 == 0L) ? 1 : 0;
      if ((t250 != 0 ? t248 : t249) != 0) { continue L235; }
      break L235;
     }
    }
    b[((int) (l1 + (l9 = l13 + -1L))) - 58912] = (byte) (((int) l2) | 48);
    break L1;
   }
   throw State.trap();
  }
  b[((int) (l1 + (l10 = l13 + -2L))) - 58912] = (byte) 47;
  b[((int) ((l1 + l13) + -1L)) - 58912] = (byte) (l30 | 48);
  L251: {
   final int t252 = (l8 + Long.MIN_VALUE < -9223372036854775798L) ? 1 : 0;
   final int t253 = (l7 == 0L) ? 1 : 0;
   if ((t253 != 0 ? t252 : 0) != 0) { break L251; }
   L254: while (true) {
    final long t255 = l15 = l7;
    final int t256 = ((l15 | (l16 = l8)) == 0L) ? 1 : 0;
    final long t257 = (long) Long.numberOfLeadingZeros(l15);
    final long t258 = ((long) Long.numberOfLeadingZeros(l16)) + 64L;
    final int t259 = l31 = (l15 != 0L) ? 1 : 0;
    final int t260 = ((l9 = 124L - (l2 = t259 != 0 ? t257 : t258)) + Long.MIN_VALUE > -9223372036854775681L) ? 1 : 0;
    final int t261 = ((l18 = 0L - ((l2 + Long.MIN_VALUE > -9223372036854775684L) ? 1L : 0L)) != 0L) ? 1 : 0;
    final int t262 = (l18 == 0L) ? 1 : 0;
    l7 = ((l30 = t256 | (t262 != 0 ? t260 : t261)) != 0) ? 0L : t255;
    l8 = l30 != 0 ? 0L : l16;
    L263: {
     if (l30 != 0) { break L263; }
     if (((l9 ^ 127L) | l18) == 0L) { break L263; }
     Core1.f4(m, l3 + 112L, l16, l15, 127 - ((int) l9));
     l14 = Words.get64(b, ((int) l3) - 58792);
     l2 = Words.get64(b, ((int) l3) - 58800);
     L264: {
      L265: {
       if (((l9 = l9 + 1L) | (l19 = l18 + ((l9 == 0L) ? 1L : 0L))) == 0L) { break L265; }
       Core1.f5(m, l3 + 96L, l16, l15, (int) l9);
       l12 = 10L + -1L;
       l20 = 0L - ((10L == 0L) ? 1L : 0L);
       l17 = Words.get64(b, ((int) l3) - 58808);
       l18 = Words.get64(b, ((int) l3) - 58816);
       l21 = 0L;
       L266: while (true) {
        l22 = l21;
        l21 = (l18 = ((l20 - (l23 = (l17 << 1L) | (l18 >>> 63L))) - ((l12 + Long.MIN_VALUE < (l17 = (l18 << 1L) | (l14 >>> 63L)) + Long.MIN_VALUE) ? 1L : 0L)) >> 63L) & 1L;
        l18 = l17 - (l11 = l18 & 10L);
        l17 = l23 - ((l17 + Long.MIN_VALUE < l11 + Long.MIN_VALUE) ? 1L : 0L);
        l14 = 0L | ((l14 << 1L) | (l2 >>> 63L));
        l30 = (l9 == 0L) ? 1 : 0;
        l2 = l22 | (l2 << 1L);
        l9 = l22 = l9 + -1L;
        if (!((l22 | (l19 = l19 - (l30 & 0xffffffffL))) == 0L)) { continue L266; }
        break L264;
       }
      }
      l21 = 0L;
     }
     l7 = (l14 << 1L) | (l2 >>> 63L);
     l8 = l21 | (l2 << 1L);
    }
    Core1.f3(m, l3 + 80L, l8, l3, 10L, 0L);
    b[((int) (l1 + (l10 = l10 + -1L))) - 58912] = (byte) (((int) (l16 - Words.get64(b, ((int) l3) - 58832))) | 48);
    final int t267 = (l16 + Long.MIN_VALUE > -9223372036854775709L) ? 1 : 0;
    final int t268 = l31;
    final int t269 = (l15 == 0L) ? 1 : 0;
    if ((t269 != 0 ? t267 : t268) != 0) { continue L254; }
    break L254;
   }
  }
  b[((int) (l1 + (l9 = l10 + -1L))) - 58912] = (byte) (((int) l8) | 48);
 }
 L270: {
  if (l6 > -1L) { break L270; }
  b[((int) (l1 + (l9 = l9 + -1L))) - 58912] = (byte) 45;
 }
 Words.put64(b, ((int) l0) - 58904, 80L - l9);
 Words.put64(b, ((int) l0) - 58912, l1 + l9);
 m.g0 = l3 + 816L;
}

static void f53(State m, long l0, long l1, long l2) {
 final byte[] b = m.bytes;
 long l3 = 0;
 long l4 = 0;
 long l5 = 0;
 long l6 = 0;
 long l7 = 0;
 long l8 = 0;
 long l9 = 0;
 long l10 = 0;
 L1: {
  if (m.g0 < 16L) { break L1; }
  L2: {
   final long t3 = l4 = l2 + (l3 = Words.get64(b, ((int) (l0 + 16L)) - 58912));
   final int t4 = (l4 + Long.MIN_VALUE < l2 + Long.MIN_VALUE) ? 1 : 0;
   if ((l5 = t4 != 0 ? -1L : t3) + Long.MIN_VALUE > Words.get64(b, ((int) (l0 + 8L)) - 58912) + Long.MIN_VALUE) { break L2; }
   L5: {
    if (((l7 = (l6 = Words.get64(b, ((int) l0) - 58912)) + l3) - l1) + Long.MIN_VALUE >= l2 + Long.MIN_VALUE) { break L5; }
    l8 = l2 & 3L;
    l4 = 0L;
    L6: {
     if (l2 + Long.MIN_VALUE < -9223372036854775804L) { break L6; }
     l9 = l2 & -4L;
     l4 = 0L;
     L7: while (true) {
      b[((int) (l2 = l7 + l4)) - 58912] = (byte) (b[((int) (l10 = l1 + l4)) - 58912] & 0xff);
      b[((int) (l2 + 1L)) - 58912] = (byte) (b[((int) (l10 + 1L)) - 58912] & 0xff);
      b[((int) (l2 + 2L)) - 58912] = (byte) (b[((int) (l10 + 2L)) - 58912] & 0xff);
      b[((int) (l2 + 3L)) - 58912] = (byte) (b[((int) (l10 + 3L)) - 58912] & 0xff);
      if (l9 != (l4 = l4 + 4L)) { continue L7; }
      break L7;
     }
     if (l8 == 0L) { break L2; }
    }
    l2 = l1 + l4;
    l4 = l6 + (l4 + l3);
    L8: while (true) {
     b[((int) l4) - 58912] = (byte) (b[((int) l2) - 58912] & 0xff);
     l4 = l4 + 1L;
     l2 = l2 + 1L;
     if ((l8 = l8 + -1L) != 0L) { continue L8; }
     break L2;
    }
   }
   if (l2 == 0L) { break L2; }
   m.copy((int) l7, (int) l1, (int) l2);
  }
  Words.put64(b, ((int) (l0 + 16L)) - 58912, l5);
  return;
 }
 throw State.trap();
}

static void f54(State m, long l0, int l1, long l2, long l3) {
 final byte[] b = m.bytes;
 long l4 = 0;
 long l5 = 0;
 long l6 = 0;
 long l7 = 0;
 int l8 = 0;
 int l9 = 0;
 int l10 = 0;
 int l11 = 0;
 L1: {
  L2: {
   L3: {
    L4: {
     L5: {
      if ((l4 = m.g0) < 16L) { break L5; }
      if (l3 == 0L) { break L2; }
      l9 = (l8 = (int) b[((int) l2) - 58912]) & 255;
      L6: {
       L7: {
        if (l8 > -1) { break L7; }
        l10 = (b[((int) l2) - 58911] & 0xff) & 63;
        L8: {
         L9: {
          if (l8 + Integer.MIN_VALUE > 2147483615) { break L9; }
          l9 = ((l9 << 6) & 1984) | l10;
          break L8;
         }
         l11 = (b[((int) l2) - 58910] & 0xff) & 63;
         L10: {
          if (l8 + Integer.MIN_VALUE > 2147483631) { break L10; }
          l9 = ((l10 << 6) | ((l9 << 12) & 61440)) | l11;
          break L8;
         }
         l9 = ((l11 << 6) | ((l10 << 12) | ((l9 << 18) & 1835008))) | ((b[((int) l2) - 58909] & 0xff) & 63);
        }
        if (l9 + Integer.MIN_VALUE > -2147483521) { break L6; }
       }
       l5 = 77255L;
       l6 = 12L;
       l8 = 0;
       l7 = 7L;
       if ((l9 + -9) + Integer.MIN_VALUE < -2147483643) { break L1; }
       if (l9 != 32) { break L3; }
       break L1;
      }
      l5 = 77255L;
      l6 = 12L;
      l8 = 0;
      l7 = 7L;
      if ((l9 + -8192) + Integer.MIN_VALUE < -2147483637) { break L1; }
      L11: {
       if (l9 > 8231) { break L11; }
       if (l9 == 133) { break L1; }
       if (l9 == 160) { break L1; }
       if (l9 != 5760) { break L3; }
       break L1;
      }
      if ((l10 = l9 + -8232) + Integer.MIN_VALUE > -2147483593) { break L4; }
      if (((1L << (l10 & 0xffffffffL)) & 36028797018964099L) == 0L) { break L4; }
      break L1;
     }
     throw State.trap();
    }
    if (l9 == 12288) { break L1; }
   }
   l5 = 77274L;
   l6 = 21L;
   l8 = 1;
   l7 = 22L;
   if (l9 + Integer.MIN_VALUE < -2147483616) { break L1; }
   if ((l9 + -127) + Integer.MIN_VALUE < -2147483615) { break L1; }
   if (l9 == 8288) { break L1; }
   if (l9 == 65279) { break L1; }
   if (l9 + Integer.MIN_VALUE < -2147475445) { break L2; }
   if (l9 + Integer.MIN_VALUE < -2147475440) { break L1; }
   if ((l9 + -8234) + Integer.MIN_VALUE <= -2147483644) { break L1; }
  }
  f53(m, l0, ((l9 = ((l1 & 255) == 2) ? 1 : 0) != 0) ? 77338L : 77344L, 3L);
  f53(m, l0, l2, l3);
  f53(m, l0, l9 != 0 ? 77341L : 77347L, 3L);
  m.g0 = l4;
  return;
 }
 L12: {
  L13: {
   L14: {
    L15: {
     switch ((int) ((l1 & 0xffffffffL) & 255L)) {
     case 1: break L15;
     case 2: break L14;
     default: break L12;
     }
    }
    l5 = l8 != 0 ? 77296L : 77262L;
    break L13;
   }
   l5 = l8 != 0 ? 77317L : 77262L;
  }
  l7 = l6;
 }
 f53(m, l0, l5, l7);
 m.g0 = l4;
}

static void f55(State m, long l0, long l1, long l2, long l3) {
 final byte[] b = m.bytes;
 long l4 = 0;
 long l5 = 0;
 long l6 = 0;
 long l7 = 0;
 int l8 = 0;
 int l9 = 0;
 int l10 = 0;
 int l11 = 0;
 m.g0 = l4 = m.g0 - 16L;
 L1: {
  if ((l5 = l4) < 16L) { break L1; }
  l4 = 0L;
  L2: {
   final long t3 = l3 = l3 + 1L;
   final int t4 = (l3 == 0L) ? 1 : 0;
   if ((l3 = t4 != 0 ? -1L : t3) + Long.MIN_VALUE < -9223372036854775792L) { break L2; }
   Core1.f25(m, l5, l1, l2, l3);
   l3 = Words.get64(b, ((int) l5) - 58904);
   l4 = Words.get64(b, ((int) l5) - 58912);
  }
  L5: {
   if (l3 + Long.MIN_VALUE < -9223372036854775805L) { break L5; }
   L6: while (true) {
    if ((l2 - l4) + Long.MIN_VALUE < -9223372036854775800L) { break L5; }
    L7: {
     L8: {
      if (((l6 = Words.get64(b, ((int) (l1 + l4)) - 58912)) & 67553998437089520L) != 63050398541283552L) { break L8; }
      l3 = l3 + -3L;
      l4 = l4 + 9L;
      break L7;
     }
     if (l3 + Long.MIN_VALUE < -9223372036854775800L) { break L5; }
     if ((l6 & -9187201950435737472L) != 0L) { break L5; }
     l3 = l3 + -8L;
     l4 = l4 + 8L;
    }
    if (l3 + Long.MIN_VALUE > -9223372036854775806L) { continue L6; }
    break L6;
   }
  }
  L9: {
   if (l3 == 0L) { break L9; }
   if (l2 + Long.MIN_VALUE <= l4 + Long.MIN_VALUE) { break L9; }
   l3 = l3 + -1L;
   L10: while (true) {
    l4 = Words.get64(b, ((int) (((((b[((int) (l1 + l4)) - 58912] & 0xff) >>> 1) & 0xffffffffL) & 120L) + 66680L)) - 58912) + l4;
    if (l3 == 0L) { break L9; }
    l3 = l3 + -1L;
    if (l2 + Long.MIN_VALUE > l4 + Long.MIN_VALUE) { continue L10; }
    break L10;
   }
  }
  l3 = 0L;
  l7 = 83372L;
  L11: {
   if (l2 + Long.MIN_VALUE < l4 + Long.MIN_VALUE) { break L11; }
   L12: {
    if ((l8 = (l2 == l4) ? 1 : 0) != 0) { break L12; }
    if (((int) b[((int) (l1 + l4)) - 58912]) < -64) { break L11; }
   }
   l1 = l1 + l4;
   L13: {
    L14: {
     if (l8 == 0) { break L14; }
     l2 = 0L;
     l4 = 0L;
     break L13;
    }
    l6 = l2 - l4;
    l4 = 0L;
    L15: {
     L16: while (true) {
      l8 = (l9 = (int) b[((int) (l2 = l1 + l4)) - 58912]) & 255;
      l3 = 1L;
      L17: {
       L18: {
        L19: {
         if (l9 > -1) { break L19; }
         l10 = (b[((int) l2) - 58911] & 0xff) & 63;
         L20: {
          L21: {
           if (l9 + Integer.MIN_VALUE > 2147483615) { break L21; }
           l8 = ((l8 << 6) & 1984) | l10;
           l3 = 2L;
           break L20;
          }
          l11 = (b[((int) l2) - 58910] & 0xff) & 63;
          L22: {
           if (l9 + Integer.MIN_VALUE > 2147483631) { break L22; }
           l8 = ((l10 << 6) | ((l8 << 12) & 61440)) | l11;
           l3 = 3L;
           break L20;
          }
          l8 = ((l11 << 6) | ((l10 << 12) | ((l8 << 18) & 1835008))) | ((b[((int) l2) - 58909] & 0xff) & 63);
          l3 = 4L;
         }
         if (l8 + Integer.MIN_VALUE > -2147483521) { break L18; }
        }
        if ((l8 + -9) + Integer.MIN_VALUE < -2147483643) { break L17; }
        if (l8 == 32) { break L17; }
        break L15;
       }
       if (l8 == 12288) { break L17; }
       if (l8 == 8287) { break L17; }
       if (l8 == 8239) { break L17; }
       if ((l8 & 2097150) == 8232) { break L17; }
       if ((l8 + -8192) + Integer.MIN_VALUE < -2147483637) { break L17; }
       if (l8 == 5760) { break L17; }
       if (l8 == 133) { break L17; }
       if (l8 != 160) { break L15; }
      }
      if ((l4 = l3 + l4) + Long.MIN_VALUE < l6 + Long.MIN_VALUE) { continue L16; }
      break L16;
     }
    }
    l1 = l1 + l4;
    L23: {
     if (l6 != l4) { break L23; }
     l4 = 0L;
     l2 = 0L;
     break L13;
    }
    l3 = 0L;
    if ((l2 = l6 - l4) + Long.MIN_VALUE < (l4 = Words.get64(b, ((int) (((((l8 = (int) b[((int) l1) - 58912]) >>> 1) & 0xffffffffL) & 120L) + 66680L)) - 58912)) + Long.MIN_VALUE) { break L11; }
    if (l8 < -64) { break L11; }
   }
   L24: {
    if (l4 != l2) { break L24; }
    l7 = l1;
    l3 = l4;
    break L11;
   }
   l3 = ((l8 = (((int) b[((int) (l1 + l4)) - 58912]) > -65) ? 1 : 0) != 0) ? l4 : 0L;
   l7 = l8 != 0 ? l1 : 83372L;
  }
  Words.put64(b, ((int) l0) - 58904, l3);
  Words.put64(b, ((int) l0) - 58912, l7);
  m.g0 = l5 + 16L;
  return;
 }
 throw State.trap();
}

static int f56(State m, long l0, int l1, long l2, long l3, long l4, long l5, int l6) {
 final byte[] b = m.bytes;
 long l7 = 0;
 long l8 = 0;
 long l9 = 0;
 long l10 = 0;
 long l11 = 0;
 long l12 = 0;
 long l13 = 0;
 long l14 = 0;
 long l15 = 0;
 long l16 = 0;
 long l17 = 0;
 int l18 = 0;
 L1: {
  if ((l7 = m.g0) < 16L) { break L1; }
  l8 = ((l18 = l1 & 255) != 0) ? 3L : 2L;
  l9 = l18 != 0 ? 77550L : 77548L;
  l10 = ((l18 = (l18 == 2) ? 1 : 0) != 0) ? 77562L : 77553L;
  l11 = l18 != 0 ? 77338L : 77344L;
  l12 = l18 != 0 ? 77341L : 77347L;
  l13 = 0L;
  L2: while (true) {
   L3: {
    if (Core1.f29(m, l4, l5, l14 = l2 + (l13 << 2L)) == 0) { break L3; }
    L4: {
     if ((l6 & 1) != 0) { break L4; }
     f53(m, l0, l9, l8);
    }
    L5: {
     L6: {
      if ((l18 = Words.get32(b, ((int) l14) - 58912)) != 20154) { break L6; }
      f53(m, l0, l10, 9L);
      break L5;
     }
     L7: {
      L8: {
       L9: {
        if (l18 + Integer.MIN_VALUE < -2147483520) { break L9; }
        l15 = 1550L;
        l14 = 0L;
        L10: while (true) {
         final long t11 = l14;
         final long t12 = (l16 = ((l15 - l14) >>> 1L) + l14) + 1L;
         final int t13 = l6 = (((((b[((int) ((l17 = l16 * 3L) + 77572L)) - 58912] & 0xff) << 8) | ((b[State.far((int) l17, 77571)] & 0xff) << 16)) | (b[((int) (l17 + 77573L)) - 58912] & 0xff)) + Integer.MIN_VALUE > l18 + Integer.MIN_VALUE) ? 1 : 0;
         if ((l14 = t13 != 0 ? t11 : t12) + Long.MIN_VALUE < (l15 = l6 != 0 ? l16 : l15) + Long.MIN_VALUE) { continue L10; }
         break L10;
        }
        if ((((int) l14) & 1) != 0) { break L7; }
        l15 = 296L;
        l14 = 0L;
        L14: while (true) {
         final long t15 = l14;
         final long t16 = (l16 = ((l15 - l14) >>> 1L) + l14) + 1L;
         final int t17 = l6 = (((((b[((int) ((l17 = l16 * 3L) + 82222L)) - 58912] & 0xff) << 8) | ((b[State.far((int) l17, 82221)] & 0xff) << 16)) | (b[((int) (l17 + 82223L)) - 58912] & 0xff)) + Integer.MIN_VALUE > l18 + Integer.MIN_VALUE) ? 1 : 0;
         if ((l14 = t17 != 0 ? t15 : t16) + Long.MIN_VALUE < (l15 = l6 != 0 ? l16 : l15) + Long.MIN_VALUE) { continue L14; }
         break L14;
        }
        if ((l14 & 1L) == 0L) { break L8; }
        break L7;
       }
       if ((l18 + -48) + Integer.MIN_VALUE < -2147483638) { break L7; }
       if (((l18 & 95) + -65) + Integer.MIN_VALUE < -2147483622) { break L7; }
      }
      f53(m, l0, l11, 3L);
      f58(m, l0, l1, l18);
      f53(m, l0, l12, 3L);
      break L5;
     }
     f58(m, l0, l1, l18);
    }
    l6 = 0;
   }
   if ((l13 = l13 + 1L) != l3) { continue L2; }
   break L2;
  }
  m.g0 = l7;
  final int t18 = l6 & 1;
  return t18;
 }
 throw State.trap();
}

static int f57(State m, long l0, int l1, long l2, long l3, long l4, long l5, int l6) {
 final byte[] b = m.bytes;
 long l7 = 0;
 long l8 = 0;
 long l9 = 0;
 long l10 = 0;
 long l11 = 0;
 long l12 = 0;
 long l13 = 0;
 int l14 = 0;
 L1: {
  if ((l7 = m.g0) < 16L) { break L1; }
  l8 = l3 + -1L;
  l9 = 0L;
  l10 = 0L;
  l11 = 0L;
  L2: {
   L3: {
    L4: {
     L5: while (true) {
      l12 = l2 + (l9 << 2L);
      l13 = l9;
      l9 = l11;
      L6: {
       L7: while (true) {
        L8: {
         if (Core1.f29(m, l4, l5, l12) == 0) { break L8; }
         if (l10 == 0L) { break L6; }
         final long t9 = l10 = l10 + 1L;
         final int t10 = (l10 == 0L) ? 1 : 0;
         l10 = t10 != 0 ? -1L : t9;
         l9 = l13;
        }
        l12 = l12 + 4L;
        if (l3 != (l13 = l13 + 1L)) { continue L7; }
        break L7;
       }
       if (l10 + Long.MIN_VALUE >= -9223372036854775805L) { break L4; }
       l14 = 0;
       break L3;
      }
      l10 = 1L;
      l9 = l13 + 1L;
      l11 = l13;
      if (l8 != l13) { continue L5; }
      break L5;
     }
     l14 = 0;
     l9 = l13;
     break L2;
    }
    final long t11 = l12 = l9 - l11;
    final int t12 = (l12 + Long.MIN_VALUE > l9 + Long.MIN_VALUE) ? 1 : 0;
    l14 = ((t12 != 0 ? 0L : t11) + Long.MIN_VALUE < l10 + Long.MIN_VALUE) ? 1 : 0;
   }
   l13 = l11;
  }
  L13: {
   if (l13 + Long.MIN_VALUE >= l3 + Long.MIN_VALUE) { break L13; }
   if (l14 == 0) { break L13; }
   if (l9 + Long.MIN_VALUE >= l3 + Long.MIN_VALUE) { break L13; }
   l12 = l2 + (l9 << 2L);
   l13 = l2 + (l13 << 2L);
   L14: {
    if (l6 != 0) { break L14; }
    f53(m, l0, ((l6 = l1 & 255) != 0) ? 77550L : 77548L, l6 != 0 ? 3L : 2L);
   }
   f58(m, l0, l1, Words.get32(b, ((int) l13) - 58912));
   f53(m, l0, 83109L, 3L);
   f58(m, l0, l1, Words.get32(b, ((int) l12) - 58912));
   m.g0 = l7;
   return 0;
  }
  l1 = f56(m, l0, l1, l2, l3, l4, l5, l6);
  m.g0 = l7;
  final int t15 = l1;
  return t15;
 }
 throw State.trap();
}

static void f58(State m, long l0, int l1, int l2) {
 final byte[] b = m.bytes;
 long l3 = 0;
 long l4 = 0;
 m.g0 = l3 = m.g0 - 16L;
 L1: {
  L2: {
   L3: {
    L4: {
     if ((l3 = l3) < 16L) { break L4; }
     Words.put32(b, ((int) l3) - 58900, 0);
     L5: {
      if ((l1 & 255) != 2) { break L5; }
      L6: {
       L7: {
        L8: {
         L9: {
          L10: {
           if (l2 > 28856) { break L10; }
           L11: {
            if (l2 > 20888) { break L11; }
            if (l2 == 19975) { break L9; }
            if (l2 != 20159) { break L5; }
            l1 = 20740;
            break L2;
           }
           if (l2 == 20889) { break L7; }
           if (l2 == 21441) { break L3; }
           if (l2 != 24065) { break L5; }
           l1 = 24163;
           break L2;
          }
          l1 = 36019;
          L12: {
           switch (l2 + -36127) {
           case 0: break L8;
           case 1: case 2: case 3: case 4: case 5: case 6: case 7: case 8: case 9: case 10: case 11: case 12: case 13: case 14: case 15: case 16: break L5;
           case 17: break L2;
           default: break L12;
           }
          }
          if (l2 == 28857) { break L6; }
          if (l2 != 38470) { break L5; }
          l1 = 38520;
          break L2;
         }
         l1 = 33836;
         break L2;
        }
        l1 = 36000;
        break L2;
       }
       l1 = 23531;
       break L2;
      }
      l1 = 40670;
      break L2;
     }
     L13: {
      if (l2 + Integer.MIN_VALUE > -2147483521) { break L13; }
      b[((int) l3) - 58900] = (byte) l2;
      l4 = 1L;
      break L1;
     }
     L14: {
      if (l2 + Integer.MIN_VALUE > -2147481601) { break L14; }
      b[((int) l3) - 58899] = (byte) ((l2 & 63) | 128);
      b[((int) l3) - 58900] = (byte) ((l2 >>> 6) | 192);
      l4 = 2L;
      break L1;
     }
     L15: {
      if (l2 + Integer.MIN_VALUE > -2147418113) { break L15; }
      l1 = l2;
      break L2;
     }
     b[((int) l3) - 58897] = (byte) ((l2 & 63) | 128);
     b[((int) l3) - 58900] = (byte) ((l2 >>> 18) + -16);
     b[((int) l3) - 58898] = (byte) (((l2 >>> 6) & 63) | 128);
     b[((int) l3) - 58899] = (byte) (((l2 >>> 12) & 63) | 128);
     l4 = 4L;
     break L1;
    }
    throw State.trap();
   }
   l1 = 21443;
  }
  b[((int) l3) - 58898] = (byte) ((l1 & 63) | 128);
  b[((int) l3) - 58900] = (byte) ((l1 >>> 12) | 224);
  b[((int) l3) - 58899] = (byte) (((l1 >>> 6) & 63) | 128);
  l4 = 3L;
 }
 f53(m, l0, l3 + 12L, l4);
 m.g0 = l3 + 16L;
}

static long f59(State m, long l0, long l1, long l2) {
 final byte[] b = m.bytes;
 long l3 = 0;
 long l4 = 0;
 long l5 = 0;
 L1: {
  if (m.g0 < 16L) { break L1; }
  L2: {
   if ((l3 = l2 - l1) + Long.MIN_VALUE < -9223372036854775744L) { break L2; }
   l2 = (b[((int) (l0 + 16L)) - 58912] & 0xffL) * 72340172838076673L;
   l4 = Words.get64(b, ((int) l0) - 58912);
   L3: while (true) {
    if (((((((((((((l5 = l2 ^ Words.get64(b, ((int) (l0 = l4 + l1)) - 58912)) & 9187201950435737471L) + 9187201950435737471L) | l5) & ((((l5 = l2 ^ Words.get64(b, ((int) (l0 + 16L)) - 58912)) & 9187201950435737471L) + 9187201950435737471L) | l5)) & ((((l5 = Words.get64(b, ((int) (l0 + 32L)) - 58912) ^ l2) & 9187201950435737471L) + 9187201950435737471L) | l5)) & ((((l5 = Words.get64(b, ((int) (l0 + 48L)) - 58912) ^ l2) & 9187201950435737471L) + 9187201950435737471L) | l5)) & ((((l5 = Words.get64(b, ((int) (l0 + 8L)) - 58912) ^ l2) & 9187201950435737471L) + 9187201950435737471L) | l5)) & ((((l5 = Words.get64(b, ((int) (l0 + 24L)) - 58912) ^ l2) & 9187201950435737471L) + 9187201950435737471L) | l5)) & ((((l5 = Words.get64(b, ((int) (l0 + 40L)) - 58912) ^ l2) & 9187201950435737471L) + 9187201950435737471L) | l5)) & ((((l0 = Words.get64(b, ((int) (l0 + 56L)) - 58912) ^ l2) & 9187201950435737471L) + 9187201950435737471L) | l0)) & -9187201950435737472L) != -9187201950435737472L) { break L2; }
    l1 = l1 + 64L;
    if ((l3 = l3 + -64L) + Long.MIN_VALUE > -9223372036854775745L) { continue L3; }
    break L3;
   }
  }
  final long t4 = l1;
  return t4;
 }
 throw State.trap();
}

static void f60(State m, long l0, long l1, long l2) {
 final byte[] b = m.bytes;
 long l3 = 0;
 long l4 = 0;
 long l5 = 0;
 long l6 = 0;
 long l7 = 0;
 int l8 = 0;
 int l9 = 0;
 int l10 = 0;
 int l11 = 0;
 m.g0 = l3 = m.g0 - 80L;
 L1: {
  if ((l3 = l3) < 16L) { break L1; }
  l4 = 0L;
  Words.put64(b, ((int) l3) - 58864, 0L);
  Words.put64(b, ((int) l3) - 58856, 0L);
  Words.put64(b, ((int) l3) - 58840, 0L);
  l5 = 1L;
  Words.put64(b, ((int) l3) - 58848, 1L);
  Words.put64(b, ((int) l3) - 58904, 0L);
  Words.put64(b, ((int) l3) - 58896, 0L);
  Words.put64(b, ((int) l3) - 58888, 0L);
  Words.put64(b, ((int) l3) - 58880, 0L);
  Words.put64(b, ((int) l3) - 58872, 0L);
  L2: {
   L3: {
    L4: {
     if (l2 == 0L) { break L4; }
     L5: while (true) {
      l9 = (l8 = (int) b[((int) l1) - 58912]) & 255;
      l6 = 1L;
      L6: {
       if (l8 > -1) { break L6; }
       l10 = (b[((int) l1) - 58911] & 0xff) & 63;
       L7: {
        if (l8 + Integer.MIN_VALUE > 2147483615) { break L7; }
        l9 = ((l9 << 6) & 1984) | l10;
        l6 = 2L;
        break L6;
       }
       l11 = (b[((int) l1) - 58910] & 0xff) & 63;
       L8: {
        if (l8 + Integer.MIN_VALUE > 2147483631) { break L8; }
        l9 = ((l10 << 6) | ((l9 << 12) & 61440)) | l11;
        l6 = 3L;
        break L6;
       }
       l9 = ((l11 << 6) | ((l10 << 12) | ((l9 << 18) & 1835008))) | ((b[((int) l1) - 58909] & 0xff) & 63);
       l6 = 4L;
      }
      Core1.f23(m, l3 + 8L, l3 + 48L, l9);
      if ((b[((int) l3) - 58904] & 0xff) != 1) { break L3; }
      Words.put64(b, ((int) l3) - 58840, l7 = Words.get64(b, ((int) l3) - 58872));
      b[((int) l3) - 58856] = (byte) (l9 = b[((int) l3) - 58888] & 0xff);
      b[((int) l3) - 58864] = (byte) (l8 = b[((int) l3) - 58896] & 0xff);
      Words.put64(b, ((int) l3) - 58848, ((l10 = b[((int) l3) - 58880] & 0xff) & 0xffffffffL) & 255L);
      l4 = l4 + 1L;
      l1 = l1 + l6;
      if ((l2 = l2 - l6) != 0L) { continue L5; }
      break L5;
     }
     if (((1 << l9) & 6716) == 0) { break L4; }
     l4 = 0L;
     final long t9 = 0L - l7;
     final long t10 = l7;
     final int t11 = ((l8 & 255) == 2) ? 1 : 0;
     final long t12 = t11 != 0 ? t9 : t10;
     final int t13 = l9 = ((l10 & 255) != 1) ? 1 : 0;
     l1 = t13 != 0 ? 2L : t12;
     l5 = l9 & 0xffffffffL;
     break L2;
    }
    l1 = 0L;
    l4 = 0L;
    break L2;
   }
   l5 = 1L;
   l1 = 1L;
  }
  Words.put64(b, ((int) l0) - 58912, l5);
  Words.put64(b, ((int) (l0 + 16L)) - 58912, l4);
  Words.put64(b, ((int) (l0 + 8L)) - 58912, l1);
  m.g0 = l3 + 80L;
  return;
 }
 throw State.trap();
}

static void f61(State m, long l0, int l1) {
 final byte[] b = m.bytes;
 int l2 = 0;
 int l3 = 0;
 L1: {
  L2: {
   L3: {
    L4: {
     if (m.g0 < 16L) { break L4; }
     l2 = 1;
     L5: {
      L6: {
       L7: {
        L8: {
         L9: {
          L10: {
           L11: {
            L12: {
             L13: {
              L14: {
               if (l1 > 26496) { break L14; }
               l3 = 0;
               L15: {
                if (l1 > 20490) { break L15; }
                L16: {
                 if (l1 > 20139) { break L16; }
                 if (l1 == 19975) { break L13; }
                 if (l1 == 20010) { break L1; }
                 break L2;
                }
                L17: {
                 switch (l1 + -20140) {
                 case 0: break L9;
                 case 1: case 2: case 3: case 4: case 5: case 6: case 7: case 8: case 9: case 10: case 11: case 12: case 13: case 14: case 15: case 16: case 17: case 18: break L2;
                 case 19: break L10;
                 default: break L17;
                 }
                }
                if (l1 == 20191) { break L11; }
                if (l1 != 20336) { break L2; }
                break L3;
               }
               L18: {
                if (l1 > 21312) { break L18; }
                if (l1 == 20491) { break L1; }
                if (l1 == 20740) { break L10; }
                if (l1 != 20806) { break L2; }
                l3 = 6;
                break L1;
               }
               L19: {
                L20: {
                 switch (l1 + -21313) {
                 case 0: break L19;
                 case 1: break L2;
                 case 2: break L11;
                 default: break L20;
                 }
                }
                if (l1 == 22419) { break L8; }
                if (l1 != 25342) { break L2; }
               }
               l3 = 1;
               l2 = 1;
               break L1;
              }
              L21: {
               if (l1 > 28566) { break L21; }
               L22: {
                if (l1 > 27806) { break L22; }
                if (l1 == 26497) { break L5; }
                if (l1 == 26997) { break L5; }
                if (l1 != 27491) { break L2; }
                l3 = 13;
                break L1;
               }
               L23: {
                if (l1 == 27807) { break L23; }
                if (l1 == 28071) { break L6; }
                if (l1 != 28317) { break L2; }
               }
               l3 = 11;
               break L1;
              }
              L24: {
               if (l1 > 31343) { break L24; }
               if (l1 == 28567) { break L6; }
               if (l1 == 30334) { break L3; }
               if (l1 != 31213) { break L2; }
               l3 = 9;
               break L1;
              }
              if (l1 > 36616) { break L12; }
              if (l1 == 31344) { break L7; }
              if (l1 != 33836) { break L2; }
             }
             l3 = 4;
             break L1;
            }
            L25: {
             if (l1 == 36617) { break L25; }
             if (l1 != 36733) { break L2; }
            }
            l3 = 14;
            break L1;
           }
           l3 = 3;
           break L1;
          }
          l3 = 5;
          break L1;
         }
         l3 = 7;
         break L1;
        }
        l3 = 8;
        break L1;
       }
       l3 = 10;
       break L1;
      }
      l3 = 12;
      break L1;
     }
     l3 = 15;
     break L1;
    }
    throw State.trap();
   }
   l3 = 2;
   break L1;
  }
  l2 = 0;
  l3 = 0;
 }
 b[((int) l0) - 58911] = (byte) l3;
 b[((int) l0) - 58912] = (byte) l2;
}

static long f62(State m, long l0, long l1, long l2) {
 final byte[] b = m.bytes;
 long l3 = 0;
 long l4 = 0;
 long l5 = 0;
 long l6 = 0;
 long l7 = 0;
 long l8 = 0;
 L1: {
  if (m.g0 < 16L) { break L1; }
  L2: {
   if ((l3 = l2 - l1) + Long.MIN_VALUE < -9223372036854775744L) { break L2; }
   l5 = (l4 = Words.get64(b, ((int) l0) - 58912)) + Words.get64(b, ((int) (l0 + 24L)) - 58912);
   l2 = (b[((int) (l0 + 17L)) - 58912] & 0xffL) * 72340172838076673L;
   l0 = (b[((int) (l0 + 16L)) - 58912] & 0xffL) * 72340172838076673L;
   L3: while (true) {
    if (((((((((((((l8 = (l2 ^ Words.get64(b, ((int) (l6 = l5 + l1)) - 58912)) | (l0 ^ Words.get64(b, ((int) (l7 = l4 + l1)) - 58912))) & 9187201950435737471L) + 9187201950435737471L) | l8) & ((((l8 = (Words.get64(b, ((int) (l6 + 16L)) - 58912) ^ l2) | (Words.get64(b, ((int) (l7 + 16L)) - 58912) ^ l0)) & 9187201950435737471L) + 9187201950435737471L) | l8)) & ((((l8 = (Words.get64(b, ((int) (l6 + 32L)) - 58912) ^ l2) | (Words.get64(b, ((int) (l7 + 32L)) - 58912) ^ l0)) & 9187201950435737471L) + 9187201950435737471L) | l8)) & ((((l8 = (Words.get64(b, ((int) (l6 + 48L)) - 58912) ^ l2) | (Words.get64(b, ((int) (l7 + 48L)) - 58912) ^ l0)) & 9187201950435737471L) + 9187201950435737471L) | l8)) & ((((l8 = (Words.get64(b, ((int) (l6 + 8L)) - 58912) ^ l2) | (Words.get64(b, ((int) (l7 + 8L)) - 58912) ^ l0)) & 9187201950435737471L) + 9187201950435737471L) | l8)) & ((((l8 = (Words.get64(b, ((int) (l6 + 24L)) - 58912) ^ l2) | (Words.get64(b, ((int) (l7 + 24L)) - 58912) ^ l0)) & 9187201950435737471L) + 9187201950435737471L) | l8)) & ((((l8 = (Words.get64(b, ((int) (l6 + 40L)) - 58912) ^ l2) | (Words.get64(b, ((int) (l7 + 40L)) - 58912) ^ l0)) & 9187201950435737471L) + 9187201950435737471L) | l8)) & ((((l6 = (Words.get64(b, ((int) (l6 + 56L)) - 58912) ^ l2) | (Words.get64(b, ((int) (l7 + 56L)) - 58912) ^ l0)) & 9187201950435737471L) + 9187201950435737471L) | l6)) & -9187201950435737472L) != -9187201950435737472L) { break L2; }
    l1 = l1 + 64L;
    if ((l3 = l3 + -64L) + Long.MIN_VALUE > -9223372036854775745L) { continue L3; }
    break L3;
   }
  }
  final long t4 = l1;
  return t4;
 }
 throw State.trap();
}

static void f63(State m, long l0, int l1) {
 final byte[] b = m.bytes;
 int l2 = 0;
 int l3 = 0;
 L1: {
  L2: {
   L3: {
    L4: {
     L5: {
      if (m.g0 < 16L) { break L5; }
      l2 = 0;
      L6: {
       L7: {
        L8: {
         L9: {
          L10: {
           L11: {
            L12: {
             L13: {
              L14: {
               L15: {
                L16: {
                 L17: {
                  L18: {
                   L19: {
                    if (l1 > 20236) { break L19; }
                    L20: {
                     if (l1 > 19967) { break L20; }
                     l3 = 1;
                     L21: {
                      switch (l1 + -48) {
                      case 0: break L1;
                      case 1: break L18;
                      case 2: break L12;
                      case 3: break L6;
                      case 4: break L14;
                      case 5: break L10;
                      case 6: break L3;
                      case 7: break L16;
                      case 8: break L9;
                      case 9: break L4;
                      default: break L21;
                      }
                     }
                     if (l1 != 12295) { break L7; }
                     break L2;
                    }
                    L22: {
                     switch (l1 + -19968) {
                     case 0: break L18;
                     case 1: case 2: case 4: case 5: case 6: case 7: case 8: case 10: case 11: case 12: case 13: case 14: case 15: case 16: case 17: case 18: case 19: case 20: case 21: case 22: case 23: case 24: case 25: case 26: case 27: case 28: case 29: case 30: case 31: case 32: case 33: case 34: case 35: break L7;
                     case 3: break L16;
                     case 9: break L6;
                     case 36: break L12;
                     default: break L22;
                     }
                    }
                    switch (l1 + -20108) {
                    case 0: break L12;
                    case 1: case 2: case 3: case 4: case 5: case 6: case 7: break L7;
                    case 8: break L10;
                    default: break L8;
                    }
                   }
                   if (l1 > 29589) { break L15; }
                   L23: {
                    if (l1 > 22234) { break L23; }
                    switch (l1 + -20841) {
                    case 0: break L12;
                    case 1: case 3: break L7;
                    case 2: break L9;
                    case 4: break L3;
                    default: break L11;
                    }
                   }
                   if (l1 > 25419) { break L17; }
                   if (l1 == 22235) { break L14; }
                   if (l1 != 22777) { break L7; }
                  }
                  l3 = 1;
                  l2 = 1;
                  break L1;
                 }
                 if (l1 == 25420) { break L9; }
                 if (l1 != 26578) { break L7; }
                }
                l2 = 7;
                break L2;
               }
               if (l1 > 36143) { break L13; }
               L24: {
                switch (l1 + -36014) {
                case 0: case 5: break L12;
                case 1: case 2: case 3: case 4: break L7;
                default: break L24;
                }
               }
               if (l1 == 29590) { break L4; }
               if (l1 != 32902) { break L7; }
              }
              l2 = 4;
              break L2;
             }
             L25: {
              if (l1 > 38519) { break L25; }
              if (l1 == 36144) { break L12; }
              if (l1 != 38470) { break L7; }
              break L3;
             }
             if (l1 == 38520) { break L3; }
             if (l1 != 38646) { break L7; }
             break L2;
            }
            l2 = 2;
            break L2;
           }
           if (l1 != 20237) { break L7; }
          }
          l2 = 5;
          break L2;
         }
         l2 = 8;
         break L2;
        }
        if (l1 == 20061) { break L4; }
       }
       l3 = 0;
       l2 = 0;
       if ((l1 + -21441) + Integer.MIN_VALUE > -2147483645) { break L1; }
      }
      l2 = 3;
      break L2;
     }
     throw State.trap();
    }
    l2 = 9;
    break L2;
   }
   l2 = 6;
  }
  l3 = 1;
 }
 b[((int) l0) - 58911] = (byte) l2;
 b[((int) l0) - 58912] = (byte) l3;
}

static void f64(State m, long l0, long l1, int l2, int l3) {
 final byte[] b = m.bytes;
 long l4 = 0;
 long l5 = 0;
 long l6 = 0;
 long l7 = 0;
 int l8 = 0;
 int l9 = 0;
 m.g0 = l4 = m.g0 - 32L;
 L1: {
  if ((l4 = l4) < 16L) { break L1; }
  l8 = l3 >>> 16;
  Words.put64(b, ((int) l4) - 58888, 0L);
  Words.put64(b, ((int) l4) - 58896, 39L);
  Words.put64(b, ((int) l4) - 58904, l1);
  f65(m, l4 + 8L, l2, l3);
  L2: {
   final long t3 = l5 = (l1 = Words.get64(b, ((int) l4) - 58888)) + 3L;
   final int t4 = (l5 + Long.MIN_VALUE < l1 + Long.MIN_VALUE) ? 1 : 0;
   if ((l5 = t4 != 0 ? -1L : t3) + Long.MIN_VALUE > (l6 = Words.get64(b, ((int) l4) - 58896)) + Long.MIN_VALUE) { break L2; }
   b[((int) (l7 = Words.get64(b, ((int) l4) - 58904) + l1)) - 58910] = (byte) 180;
   Words.put16(b, ((int) l7) - 58912, (short) 47589);
  }
  Words.put64(b, ((int) l4) - 58888, l5);
  L5: {
   if ((l9 = l8 & 255) + Integer.MIN_VALUE > -2147483638) { break L5; }
   if (((1 << l9) & 1031) == 0) { break L5; }
   L6: {
    final long t7 = l7 = l1 + 6L;
    final int t8 = (l7 + Long.MIN_VALUE < l1 + Long.MIN_VALUE) ? 1 : 0;
    if ((l1 = t8 != 0 ? -1L : t7) + Long.MIN_VALUE > l6 + Long.MIN_VALUE) { break L6; }
    b[((int) (l5 = Words.get64(b, ((int) l4) - 58904) + l5)) - 58910] = (byte) 182;
    Words.put16(b, ((int) l5) - 58912, (short) 39913);
   }
   Words.put64(b, ((int) l4) - 58888, l1);
  }
  l9 = l3 >>> 24;
  f66(m, l4 + 8L, l2, l8);
  L9: {
   final long t10 = l5 = (l1 = Words.get64(b, ((int) l4) - 58888)) + 3L;
   final int t11 = (l5 + Long.MIN_VALUE < l1 + Long.MIN_VALUE) ? 1 : 0;
   if ((l5 = t11 != 0 ? -1L : t10) + Long.MIN_VALUE > (l6 = Words.get64(b, ((int) l4) - 58896)) + Long.MIN_VALUE) { break L9; }
   b[((int) (l7 = Words.get64(b, ((int) l4) - 58904) + l1)) - 58910] = (byte) 136;
   Words.put16(b, ((int) l7) - 58912, (short) 40166);
  }
  Words.put64(b, ((int) l4) - 58888, l5);
  l8 = (int) ((l9 & 0xffffffffL) % 10L);
  L12: {
   L13: {
    if (l3 + Integer.MIN_VALUE < -1979711488) { break L13; }
    if (l8 != 0) { break L12; }
   }
   L14: {
    final long t15 = l7 = l1 + 6L;
    final int t16 = (l7 + Long.MIN_VALUE < l1 + Long.MIN_VALUE) ? 1 : 0;
    if ((l1 = t16 != 0 ? -1L : t15) + Long.MIN_VALUE > l6 + Long.MIN_VALUE) { break L14; }
    b[((int) (l5 = Words.get64(b, ((int) l4) - 58904) + l5)) - 58910] = (byte) 182;
    Words.put16(b, ((int) l5) - 58912, (short) 39913);
   }
   Words.put64(b, ((int) l4) - 58888, l1);
  }
  f66(m, l4 + 8L, l2, l9);
  L17: {
   L18: {
    final long t19 = l5 = (l1 = Words.get64(b, ((int) l4) - 58888)) + 3L;
    final int t20 = (l5 + Long.MIN_VALUE < l1 + Long.MIN_VALUE) ? 1 : 0;
    if ((l5 = t20 != 0 ? -1L : t19) + Long.MIN_VALUE <= Words.get64(b, ((int) l4) - 58896) + Long.MIN_VALUE) { break L18; }
    l5 = 0L;
    l6 = 83372L;
    break L17;
   }
   b[((int) (l1 = (l6 = Words.get64(b, ((int) l4) - 58904)) + l1)) - 58910] = (byte) 165;
   Words.put16(b, ((int) l1) - 58912, (short) 38886);
  }
  Words.put64(b, ((int) l0) - 58904, l5);
  Words.put64(b, ((int) l0) - 58912, l6);
  m.g0 = l4 + 32L;
  return;
 }
 throw State.trap();
}

static void f65(State m, long l0, int l1, int l2) {
 final byte[] b = m.bytes;
 long l3 = 0;
 long l4 = 0;
 long l5 = 0;
 long l6 = 0;
 int l7 = 0;
 L1: {
  if ((l3 = m.g0) < 16L) { break L1; }
  L2: {
   if ((l7 = l2 & 65535) == 0) { break L2; }
   f65(m, l0, l1, l7 = (int) ((l7 & 0xffffffffL) / 10L));
   if (((l2 = Words.get32(b, ((int) ((((l1 & 255) != 0) ? 70000L : 69568L) + ((((l2 - (l7 * 10)) << 2) & 0xffffffffL) & 65532L))) - 58912)) + -55296) + Integer.MIN_VALUE <= 2147430399) { break L1; }
   L3: {
    final long t4 = l6 = (l5 = Words.get64(b, ((int) (l4 = l0 + 16L)) - 58912)) + 3L;
    final int t5 = (l6 + Long.MIN_VALUE < l5 + Long.MIN_VALUE) ? 1 : 0;
    if ((l6 = t5 != 0 ? -1L : t4) + Long.MIN_VALUE > Words.get64(b, ((int) (l0 + 8L)) - 58912) + Long.MIN_VALUE) { break L3; }
    b[((int) (l0 = Words.get64(b, ((int) l0) - 58912) + l5)) - 58910] = (byte) ((l2 & 63) | 128);
    b[((int) l0) - 58912] = (byte) ((l2 >>> 12) | 224);
    b[((int) l0) - 58911] = (byte) (((l2 >>> 6) & 63) | 128);
   }
   Words.put64(b, ((int) l4) - 58912, l6);
  }
  m.g0 = l3;
  return;
 }
 throw State.trap();
}

static void f66(State m, long l0, int l1, int l2) {
 final byte[] b = m.bytes;
 int l3 = 0;
 long l4 = 0;
 long l5 = 0;
 long l6 = 0;
 long l7 = 0;
 long l8 = 0;
 L1: {
  if (m.g0 < 16L) { break L1; }
  L2: {
   if ((l3 = l2 & 255) + Integer.MIN_VALUE > -2147483639) { break L2; }
   if (((l2 = Words.get32(b, ((int) ((((l1 & 255) != 0) ? 70000L : 69568L) + (((l2 << 2) & 0xffffffffL) & 252L))) - 58912)) + -55296) + Integer.MIN_VALUE <= 2147430399) { break L1; }
   L3: {
    final long t4 = l6 = (l5 = Words.get64(b, ((int) (l4 = l0 + 16L)) - 58912)) + 3L;
    final int t5 = (l6 + Long.MIN_VALUE < l5 + Long.MIN_VALUE) ? 1 : 0;
    if ((l6 = t5 != 0 ? -1L : t4) + Long.MIN_VALUE > Words.get64(b, ((int) (l0 + 8L)) - 58912) + Long.MIN_VALUE) { break L3; }
    b[((int) (l0 = Words.get64(b, ((int) l0) - 58912) + l5)) - 58910] = (byte) ((l2 & 63) | 128);
    b[((int) l0) - 58912] = (byte) ((l2 >>> 12) | 224);
    b[((int) l0) - 58911] = (byte) (((l2 >>> 6) & 63) | 128);
   }
   Words.put64(b, ((int) l4) - 58912, l6);
   return;
  }
  if (((l1 = Words.get32(b, ((int) ((l7 = ((l1 & 255) != 0) ? 70000L : 69568L) + (((l3 = (int) ((l3 & 0xffffffffL) / 10L)) << 2) & 0xffffffffL))) - 58912)) + -55296) + Integer.MIN_VALUE <= 2147430399) { break L1; }
  L6: {
   final long t7 = l4 = (l5 = Words.get64(b, ((int) (l0 + 16L)) - 58912)) + 3L;
   final int t8 = (l4 + Long.MIN_VALUE < l5 + Long.MIN_VALUE) ? 1 : 0;
   if ((l8 = t8 != 0 ? -1L : t7) + Long.MIN_VALUE > (l4 = Words.get64(b, ((int) (l6 = l0 + 8L)) - 58912)) + Long.MIN_VALUE) { break L6; }
   b[((int) (l4 = Words.get64(b, ((int) l0) - 58912) + l5)) - 58910] = (byte) ((l1 & 63) | 128);
   b[((int) l4) - 58912] = (byte) ((l1 >>> 12) | 224);
   b[((int) l4) - 58911] = (byte) (((l1 >>> 6) & 63) | 128);
   l4 = Words.get64(b, ((int) l6) - 58912);
  }
  L9: {
   final long t10 = l6 = l5 + 6L;
   final int t11 = (l6 + Long.MIN_VALUE < l5 + Long.MIN_VALUE) ? 1 : 0;
   if ((l6 = t11 != 0 ? -1L : t10) + Long.MIN_VALUE > l4 + Long.MIN_VALUE) { break L9; }
   b[((int) (l4 = Words.get64(b, ((int) l0) - 58912) + l8)) - 58910] = (byte) 190;
   Words.put16(b, ((int) l4) - 58912, (short) 35814);
  }
  Words.put64(b, ((int) (l0 + 16L)) - 58912, l6);
  L12: {
   if (((l2 = l2 - (l3 * 10)) & 255) == 0) { break L12; }
   if (((l2 = Words.get32(b, ((int) (l7 + (((l2 << 2) & 0xffffffffL) & 252L))) - 58912)) + -55296) + Integer.MIN_VALUE <= 2147430399) { break L1; }
   L13: {
    final long t14 = l4 = l5 + 9L;
    final int t15 = (l4 + Long.MIN_VALUE < l5 + Long.MIN_VALUE) ? 1 : 0;
    if ((l5 = t15 != 0 ? -1L : t14) + Long.MIN_VALUE > Words.get64(b, ((int) (l0 + 8L)) - 58912) + Long.MIN_VALUE) { break L13; }
    b[((int) (l4 = Words.get64(b, ((int) l0) - 58912) + l6)) - 58910] = (byte) ((l2 & 63) | 128);
    b[((int) l4) - 58912] = (byte) ((l2 >>> 12) | 224);
    b[((int) l4) - 58911] = (byte) (((l2 >>> 6) & 63) | 128);
   }
   Words.put64(b, ((int) (l0 + 16L)) - 58912, l5);
  }
  return;
 }
 throw State.trap();
}

static void f67(State m, long l0, long l1) {
 final byte[] b = m.bytes;
 long l2 = 0;
 int l3 = 0;
 int l4 = 0;
 L1: {
  if (m.g0 < 16L) { break L1; }
  b[((int) l0) - 58896] = (byte) Long.remainderUnsigned(l2 = Long.divideUnsigned(l1, 10L), 10L);
  b[((int) l0) - 58895] = (byte) (l1 - (l2 * 10L));
  Words.put32(b, ((int) l0) - 58900, (((((int) Long.remainderUnsigned(Long.divideUnsigned(l1, 100L), 10L)) << 24) | (((int) Long.remainderUnsigned(Long.divideUnsigned(l1, 1000L), 10L)) << 16)) | (((int) Long.remainderUnsigned(Long.divideUnsigned(l1, 10000L), 10L)) << 8)) | ((int) Long.remainderUnsigned(Long.divideUnsigned(l1, 100000L), 10L)));
  Words.put32(b, ((int) l0) - 58904, (((((int) Long.remainderUnsigned(Long.divideUnsigned(l1, 1000000L), 10L)) << 24) | (((int) Long.remainderUnsigned(Long.divideUnsigned(l1, 10000000L), 10L)) << 16)) | (((int) Long.remainderUnsigned(Long.divideUnsigned(l1, 100000000L), 10L)) << 8)) | ((int) Long.remainderUnsigned(Long.divideUnsigned(l1, 1000000000L), 10L)));
  Words.put32(b, ((int) l0) - 58908, (((((int) (((l4 = (int) (((l3 = (int) Long.divideUnsigned(l1, 10000000000L)) & 0xffffffffL) / 10L)) & 0xffffffffL) % 10L)) << 16) | ((l3 - (l4 * 10)) << 24)) | (((int) ((((int) ((l3 & 0xffffffffL) / 100L)) & 0xffffffffL) % 10L)) << 8)) | ((int) ((((int) ((l3 & 0xffffffffL) / 1000L)) & 0xffffffffL) % 10L)));
  Words.put32(b, ((int) l0) - 58912, (((((int) (((l4 = (int) (((l3 = (int) Long.divideUnsigned(l1, 100000000000000L)) & 0xffffffffL) / 10L)) & 0xffffffffL) % 10L)) << 16) | ((l3 - (l4 * 10)) << 24)) | (((int) ((((int) ((l3 & 0xffffffffL) / 100L)) & 0xffffffffL) % 10L)) << 8)) | ((int) (((((int) ((l3 & 0xffffffffL) / 1000L)) & 255) & 0xffffffffL) % 10L)));
  return;
 }
 throw State.trap();
}

static void f68(State m, long l0, long l1, long l2) {
 final byte[] b = m.bytes;
 long l3 = 0;
 long l4 = 0;
 long l5 = 0;
 long l6 = 0;
 int l7 = 0;
 int l8 = 0;
 int l9 = 0;
 int l10 = 0;
 int l11 = 0;
 int l12 = 0;
 int l13 = 0;
 int l14 = 0;
 int l15 = 0;
 int l16 = 0;
 m.g0 = l3 = m.g0 - 32L;
 Words.put16(b, ((int) (l3 = l3)) - 58904, (short) (Words.get16(b, ((int) l1) - 58910) & 0xffff));
 b[((int) l3) - 58902] = (byte) (b[((int) l1) - 58908] & 0xff);
 L1: {
  if (l3 < 16L) { break L1; }
  l7 = b[((int) l2) - 58895] & 0xff;
  l8 = b[((int) l2) - 58896] & 0xff;
  l9 = Words.get32(b, ((int) l2) - 58900);
  l10 = Words.get32(b, ((int) l2) - 58904);
  l11 = Words.get32(b, ((int) l2) - 58908);
  l12 = Words.get32(b, ((int) l2) - 58912);
  l13 = b[((int) l1) - 58912] & 0xff;
  L2: {
   if (((l14 = b[((int) l1) - 58911] & 0xff) & 1) == 0) { break L2; }
   L3: {
    final long t4 = l1 = (l2 = Words.get64(b, ((int) (l0 + 16L)) - 58912)) + 3L;
    final int t5 = (l1 + Long.MIN_VALUE < l2 + Long.MIN_VALUE) ? 1 : 0;
    if ((l4 = t5 != 0 ? -1L : t4) + Long.MIN_VALUE > (l1 = Words.get64(b, ((int) (l5 = l0 + 8L)) - 58912)) + Long.MIN_VALUE) { break L3; }
    b[((int) (l1 = Words.get64(b, ((int) l0) - 58912) + l2)) - 58910] = (byte) 186;
    Words.put16(b, ((int) l1) - 58912, (short) 47844);
    l1 = Words.get64(b, ((int) l5) - 58912);
   }
   L6: {
    final long t7 = l5 = l2 + 6L;
    final int t8 = (l5 + Long.MIN_VALUE < l2 + Long.MIN_VALUE) ? 1 : 0;
    if ((l6 = t8 != 0 ? -1L : t7) + Long.MIN_VALUE > l1 + Long.MIN_VALUE) { break L6; }
    b[((int) (l1 = Words.get64(b, ((int) l0) - 58912) + l4)) - 58910] = (byte) 145;
    Words.put16(b, ((int) l1) - 58912, (short) 45286);
    l1 = Words.get64(b, ((int) (l0 + 8L)) - 58912);
   }
   L9: {
    final long t10 = l5 = l2 + 9L;
    final int t11 = (l5 + Long.MIN_VALUE < l2 + Long.MIN_VALUE) ? 1 : 0;
    if ((l2 = t11 != 0 ? -1L : t10) + Long.MIN_VALUE > l1 + Long.MIN_VALUE) { break L9; }
    b[((int) (l1 = Words.get64(b, ((int) l0) - 58912) + l6)) - 58912] = (byte) 229;
    b[((int) l1) - 58910] = (byte) (((l15 = ((l13 & 255) == 1) ? 24065 : 24163) & 35) | 128);
    b[((int) l1) - 58911] = (byte) (((l15 >>> 6) & 57) | 128);
   }
   Words.put64(b, ((int) (l0 + 16L)) - 58912, l2);
  }
  b[((int) l3) - 58887] = (byte) l14;
  b[((int) l3) - 58888] = (byte) l13;
  Words.put16(b, ((int) l3) - 58886, (short) (Words.get16(b, ((int) l3) - 58904) & 0xffff));
  b[((int) l3) - 58884] = (byte) (b[((int) l3) - 58902] & 0xff);
  Words.put32(b, ((int) l3) - 58900, l12);
  L12: {
   if (l12 == 0) { break L12; }
   f69(m, l0, l3 + 24L, 0, l3 + 12L);
   L13: {
    final long t14 = l5 = (l2 = Words.get64(b, ((int) (l1 = l0 + 16L)) - 58912)) + 3L;
    final int t15 = (l5 + Long.MIN_VALUE < l2 + Long.MIN_VALUE) ? 1 : 0;
    if ((l5 = t15 != 0 ? -1L : t14) + Long.MIN_VALUE > Words.get64(b, ((int) (l0 + 8L)) - 58912) + Long.MIN_VALUE) { break L13; }
    b[((int) (l2 = Words.get64(b, ((int) l0) - 58912) + l2)) - 58910] = (byte) ((l15 = ((l13 & 255) != 0) ? 19975 : 33836) | 128);
    b[((int) l2) - 58911] = (byte) ((l15 >>> 6) | 128);
    b[((int) l2) - 58912] = (byte) ((l15 >>> 12) | 224);
   }
   Words.put64(b, ((int) l1) - 58912, l5);
  }
  b[((int) l3) - 58899] = (byte) l14;
  b[((int) l3) - 58900] = (byte) l13;
  Words.put16(b, ((int) l3) - 58898, (short) (l15 = Words.get16(b, ((int) l3) - 58904) & 0xffff));
  b[((int) l3) - 58896] = (byte) (l16 = b[((int) l3) - 58902] & 0xff);
  b[((int) l3) - 58887] = (byte) l14;
  b[((int) l3) - 58888] = (byte) l13;
  Words.put16(b, ((int) l3) - 58886, (short) l15);
  b[((int) l3) - 58884] = (byte) l16;
  Words.put32(b, ((int) l3) - 58892, l11);
  final long t16 = l0;
  final long t17 = l3 + 24L;
  final int t18 = ((l12 & 16777215) != 0) ? 1 : 0;
  final int t19 = (l12 + Integer.MIN_VALUE < -2130706432) ? 1 : 0;
  f69(m, t16, t17, l12 = t19 != 0 ? t18 : 2, l3 + 20L);
  l12 = l12 | l11;
  L20: {
   L21: {
    if (l11 + Integer.MIN_VALUE > -2147483393) { break L21; }
    if ((l12 & 255) == 0) { break L20; }
   }
   L22: {
    final long t23 = l5 = (l2 = Words.get64(b, ((int) (l1 = l0 + 16L)) - 58912)) + 3L;
    final int t24 = (l5 + Long.MIN_VALUE < l2 + Long.MIN_VALUE) ? 1 : 0;
    if ((l5 = t24 != 0 ? -1L : t23) + Long.MIN_VALUE > Words.get64(b, ((int) (l0 + 8L)) - 58912) + Long.MIN_VALUE) { break L22; }
    b[((int) (l2 = Words.get64(b, ((int) l0) - 58912) + l2)) - 58910] = (byte) ((l14 = ((l13 & 255) != 0) ? 20159 : 20740) | 128);
    b[((int) l2) - 58912] = (byte) ((l14 >>> 12) | 224);
    b[((int) l2) - 58911] = (byte) (((l14 >>> 6) & 62) | 128);
   }
   Words.put64(b, ((int) l1) - 58912, l5);
  }
  l14 = b[((int) l3) - 58898] & 0xff;
  l15 = b[((int) l3) - 58897] & 0xff;
  Words.put32(b, ((int) l3) - 58888, l10);
  final int t25 = (((l11 & 16776960) | (l12 & 255)) != 0) ? 1 : 0;
  final int t26 = (l11 + Integer.MIN_VALUE < -2130706432) ? 1 : 0;
  l11 = t26 != 0 ? t25 : 2;
  L27: {
   if (l10 == 0) { break L27; }
   f69(m, l0, l3 + 12L, l11, l3 + 24L);
   L28: {
    final long t29 = l5 = (l2 = Words.get64(b, ((int) (l1 = l0 + 16L)) - 58912)) + 3L;
    final int t30 = (l5 + Long.MIN_VALUE < l2 + Long.MIN_VALUE) ? 1 : 0;
    if ((l5 = t30 != 0 ? -1L : t29) + Long.MIN_VALUE > Words.get64(b, ((int) (l0 + 8L)) - 58912) + Long.MIN_VALUE) { break L28; }
    b[((int) (l2 = Words.get64(b, ((int) l0) - 58912) + l2)) - 58910] = (byte) ((l12 = ((l13 & 255) != 0) ? 19975 : 33836) | 128);
    b[((int) l2) - 58911] = (byte) ((l12 >>> 6) | 128);
    b[((int) l2) - 58912] = (byte) ((l12 >>> 12) | 224);
   }
   Words.put64(b, ((int) l1) - 58912, l5);
  }
  Words.put32(b, ((int) l3) - 58888, l9);
  final long t31 = l0;
  final long t32 = l3 + 12L;
  final int t33 = (((l10 & 16777215) | (l11 & 255)) != 0) ? 1 : 0;
  final int t34 = (l10 + Integer.MIN_VALUE < -2130706432) ? 1 : 0;
  f69(m, t31, t32, l11 = t34 != 0 ? t33 : 2, l3 + 24L);
  l10 = (((l8 | l7) & 255) == 0) ? 1 : 0;
  L35: {
   L36: {
    L37: {
     L38: {
      L39: {
       if ((l11 = ((l9 + Integer.MIN_VALUE > -2147483393) | (((l11 | l9) & 255) != 0)) ? 1 : 0) != 1) { break L39; }
       L40: {
        final long t41 = l5 = (l2 = Words.get64(b, ((int) (l1 = l0 + 16L)) - 58912)) + 3L;
        final int t42 = (l5 + Long.MIN_VALUE < l2 + Long.MIN_VALUE) ? 1 : 0;
        if ((l5 = t42 != 0 ? -1L : t41) + Long.MIN_VALUE > Words.get64(b, ((int) (l0 + 8L)) - 58912) + Long.MIN_VALUE) { break L40; }
        b[((int) (l2 = Words.get64(b, ((int) l0) - 58912) + l2)) - 58912] = (byte) 229;
        final int t43 = (int) l2;
        final int t44 = ((l13 & 255) == 1) ? 22278 : 22291;
        final int t45 = l14 & 1;
        b[t43 - 58910] = (byte) (((l12 = t45 != 0 ? t44 : 20803) & 23) | 128);
        b[((int) l2) - 58911] = (byte) (((l12 >>> 6) & 29) | 128);
       }
       Words.put64(b, ((int) l1) - 58912, l5);
       break L38;
      }
      if (l10 == 0) { break L38; }
      L46: {
       final long t47 = l1 = (l2 = Words.get64(b, ((int) (l0 + 16L)) - 58912)) + 3L;
       final int t48 = (l1 + Long.MIN_VALUE < l2 + Long.MIN_VALUE) ? 1 : 0;
       if ((l4 = t48 != 0 ? -1L : t47) + Long.MIN_VALUE > (l1 = Words.get64(b, ((int) (l5 = l0 + 8L)) - 58912)) + Long.MIN_VALUE) { break L46; }
       b[((int) (l1 = Words.get64(b, ((int) l0) - 58912) + l2)) - 58910] = (byte) 182;
       Words.put16(b, ((int) l1) - 58912, (short) 39913);
       l1 = Words.get64(b, ((int) l5) - 58912);
      }
      final long t49 = l5 = l2 + 6L;
      final int t50 = (l5 + Long.MIN_VALUE < l2 + Long.MIN_VALUE) ? 1 : 0;
      if ((l2 = t50 != 0 ? -1L : t49) + Long.MIN_VALUE > l1 + Long.MIN_VALUE) { break L37; }
      b[((int) (l1 = Words.get64(b, ((int) l0) - 58912) + l4)) - 58912] = (byte) 229;
      final int t51 = (int) l1;
      final int t52 = ((l13 & 255) == 1) ? 22278 : 22291;
      final int t53 = l14 & 1;
      b[t51 - 58910] = (byte) (((l13 = t53 != 0 ? t52 : 20803) & 23) | 128);
      b[((int) l1) - 58911] = (byte) (((l13 >>> 6) & 29) | 128);
      break L37;
     }
     L54: {
      if ((l8 & 255) == 0) { break L54; }
      if (((l12 = Words.get32(b, ((int) ((((l13 & 255) != 0) ? 70000L : 69568L) + (((l8 & 0xffffffffL) & 255L) << 2L))) - 58912)) + -55296) + Integer.MIN_VALUE <= 2147430399) { break L1; }
      L55: {
       final long t56 = l1 = (l2 = Words.get64(b, ((int) (l0 + 16L)) - 58912)) + 3L;
       final int t57 = (l1 + Long.MIN_VALUE < l2 + Long.MIN_VALUE) ? 1 : 0;
       if ((l4 = t57 != 0 ? -1L : t56) + Long.MIN_VALUE > (l1 = Words.get64(b, ((int) (l5 = l0 + 8L)) - 58912)) + Long.MIN_VALUE) { break L55; }
       b[((int) (l1 = Words.get64(b, ((int) l0) - 58912) + l2)) - 58910] = (byte) ((l12 & 63) | 128);
       b[((int) l1) - 58912] = (byte) ((l12 >>> 12) | 224);
       b[((int) l1) - 58911] = (byte) (((l12 >>> 6) & 63) | 128);
       l1 = Words.get64(b, ((int) l5) - 58912);
      }
      L58: {
       final long t59 = l5 = l2 + 6L;
       final int t60 = (l5 + Long.MIN_VALUE < l2 + Long.MIN_VALUE) ? 1 : 0;
       if ((l2 = t60 != 0 ? -1L : t59) + Long.MIN_VALUE > l1 + Long.MIN_VALUE) { break L58; }
       b[((int) (l1 = Words.get64(b, ((int) l0) - 58912) + l4)) - 58910] = (byte) 146;
       Words.put16(b, ((int) l1) - 58912, (short) 42984);
      }
      Words.put64(b, ((int) (l0 + 16L)) - 58912, l2);
     }
     if ((l7 & 255) != 0) { break L36; }
     l2 = Words.get64(b, ((int) (l0 + 16L)) - 58912);
    }
    L61: {
     final long t62 = l1 = l2 + 3L;
     final int t63 = (l1 + Long.MIN_VALUE < l2 + Long.MIN_VALUE) ? 1 : 0;
     if ((l1 = t63 != 0 ? -1L : t62) + Long.MIN_VALUE > Words.get64(b, ((int) (l0 + 8L)) - 58912) + Long.MIN_VALUE) { break L61; }
     b[((int) (l2 = Words.get64(b, ((int) l0) - 58912) + l2)) - 58912] = (byte) 230;
     b[((int) l2) - 58911] = (byte) ((l13 = ((l15 & 1) != 0) ? 27491 : 25972) >>> 6);
     b[((int) l2) - 58910] = (byte) ((l13 & 55) | 128);
    }
    Words.put64(b, ((int) (l0 + 16L)) - 58912, l1);
    break L35;
   }
   l2 = (l7 & 0xffffffffL) & 255L;
   L64: {
    if (((((l8 & 255) != 0) ? 1 : 0) | ((l10 | l11) ^ 1)) != 0) { break L64; }
    L65: {
     final long t66 = l4 = (l1 = Words.get64(b, ((int) (l5 = l0 + 16L)) - 58912)) + 3L;
     final int t67 = (l4 + Long.MIN_VALUE < l1 + Long.MIN_VALUE) ? 1 : 0;
     if ((l4 = t67 != 0 ? -1L : t66) + Long.MIN_VALUE > Words.get64(b, ((int) (l0 + 8L)) - 58912) + Long.MIN_VALUE) { break L65; }
     b[((int) (l1 = Words.get64(b, ((int) l0) - 58912) + l1)) - 58910] = (byte) 182;
     Words.put16(b, ((int) l1) - 58912, (short) 39913);
    }
    Words.put64(b, ((int) l5) - 58912, l4);
   }
   if (((l13 = Words.get32(b, ((int) ((((l13 & 255) != 0) ? 70000L : 69568L) + (l2 << 2L))) - 58912)) + -55296) + Integer.MIN_VALUE <= 2147430399) { break L1; }
   L68: {
    final long t69 = l1 = (l2 = Words.get64(b, ((int) (l0 + 16L)) - 58912)) + 3L;
    final int t70 = (l1 + Long.MIN_VALUE < l2 + Long.MIN_VALUE) ? 1 : 0;
    if ((l4 = t70 != 0 ? -1L : t69) + Long.MIN_VALUE > (l1 = Words.get64(b, ((int) (l5 = l0 + 8L)) - 58912)) + Long.MIN_VALUE) { break L68; }
    b[((int) (l1 = Words.get64(b, ((int) l0) - 58912) + l2)) - 58910] = (byte) ((l13 & 63) | 128);
    b[((int) l1) - 58912] = (byte) ((l13 >>> 12) | 224);
    b[((int) l1) - 58911] = (byte) (((l13 >>> 6) & 63) | 128);
    l1 = Words.get64(b, ((int) l5) - 58912);
   }
   L71: {
    final long t72 = l5 = l2 + 6L;
    final int t73 = (l5 + Long.MIN_VALUE < l2 + Long.MIN_VALUE) ? 1 : 0;
    if ((l2 = t73 != 0 ? -1L : t72) + Long.MIN_VALUE > l1 + Long.MIN_VALUE) { break L71; }
    b[((int) (l1 = Words.get64(b, ((int) l0) - 58912) + l4)) - 58910] = (byte) 134;
    Words.put16(b, ((int) l1) - 58912, (short) 35045);
   }
   Words.put64(b, ((int) (l0 + 16L)) - 58912, l2);
  }
  m.g0 = l3 + 32L;
  return;
 }
 throw State.trap();
}

static void f69(State m, long l0, long l1, int l2, long l3) {
 final byte[] b = m.bytes;
 int l4 = 0;
 int l5 = 0;
 int l6 = 0;
 int l7 = 0;
 int l8 = 0;
 int l9 = 0;
 long l10 = 0;
 long l11 = 0;
 L1: {
  if (m.g0 < 16L) { break L1; }
  l4 = b[((int) l1) - 58912] & 0xff;
  l5 = b[((int) l3) - 58911] & 0xff;
  l6 = b[((int) l3) - 58910] & 0xff;
  l7 = b[((int) l3) - 58909] & 0xff;
  L2: {
   if ((l8 = b[((int) l3) - 58912] & 0xff) == 0) { break L2; }
   l3 = l8 & 0xffffffffL;
   L3: {
    if ((l2 & 255) != 1) { break L3; }
    L4: {
     final long t5 = l11 = (l1 = Words.get64(b, ((int) (l10 = l0 + 16L)) - 58912)) + 3L;
     final int t6 = (l11 + Long.MIN_VALUE < l1 + Long.MIN_VALUE) ? 1 : 0;
     if ((l11 = t6 != 0 ? -1L : t5) + Long.MIN_VALUE > Words.get64(b, ((int) (l0 + 8L)) - 58912) + Long.MIN_VALUE) { break L4; }
     b[((int) (l1 = Words.get64(b, ((int) l0) - 58912) + l1)) - 58910] = (byte) 182;
     Words.put16(b, ((int) l1) - 58912, (short) 39913);
    }
    Words.put64(b, ((int) l10) - 58912, l11);
   }
   if (((l9 = Words.get32(b, ((int) ((((l4 & 255) != 0) ? 70000L : 69568L) + (l3 << 2L))) - 58912)) + -55296) + Integer.MIN_VALUE <= 2147430399) { break L1; }
   L7: {
    final long t8 = l1 = (l3 = Words.get64(b, ((int) (l0 + 16L)) - 58912)) + 3L;
    final int t9 = (l1 + Long.MIN_VALUE < l3 + Long.MIN_VALUE) ? 1 : 0;
    if ((l11 = t9 != 0 ? -1L : t8) + Long.MIN_VALUE > (l1 = Words.get64(b, ((int) (l10 = l0 + 8L)) - 58912)) + Long.MIN_VALUE) { break L7; }
    b[((int) (l1 = Words.get64(b, ((int) l0) - 58912) + l3)) - 58910] = (byte) ((l9 & 63) | 128);
    b[((int) l1) - 58912] = (byte) ((l9 >>> 12) | 224);
    b[((int) l1) - 58911] = (byte) (((l9 >>> 6) & 63) | 128);
    l1 = Words.get64(b, ((int) l10) - 58912);
   }
   L10: {
    final long t11 = l10 = l3 + 6L;
    final int t12 = (l10 + Long.MIN_VALUE < l3 + Long.MIN_VALUE) ? 1 : 0;
    if ((l3 = t12 != 0 ? -1L : t11) + Long.MIN_VALUE > l1 + Long.MIN_VALUE) { break L10; }
    b[((int) (l1 = Words.get64(b, ((int) l0) - 58912) + l11)) - 58910] = (byte) 159;
    Words.put16(b, ((int) l1) - 58912, (short) 48100);
   }
   Words.put64(b, ((int) (l0 + 16L)) - 58912, l3);
  }
  L13: {
   if ((l5 & 255) == 0) { break L13; }
   l3 = (l5 & 0xffffffffL) & 255L;
   L14: {
    if ((l2 & 255) == 0) { break L14; }
    if (l8 != 0) { break L14; }
    L15: {
     final long t16 = l11 = (l1 = Words.get64(b, ((int) (l10 = l0 + 16L)) - 58912)) + 3L;
     final int t17 = (l11 + Long.MIN_VALUE < l1 + Long.MIN_VALUE) ? 1 : 0;
     if ((l11 = t17 != 0 ? -1L : t16) + Long.MIN_VALUE > Words.get64(b, ((int) (l0 + 8L)) - 58912) + Long.MIN_VALUE) { break L15; }
     b[((int) (l1 = Words.get64(b, ((int) l0) - 58912) + l1)) - 58910] = (byte) 182;
     Words.put16(b, ((int) l1) - 58912, (short) 39913);
    }
    Words.put64(b, ((int) l10) - 58912, l11);
   }
   if (((l9 = Words.get32(b, ((int) ((((l4 & 255) != 0) ? 70000L : 69568L) + (l3 << 2L))) - 58912)) + -55296) + Integer.MIN_VALUE <= 2147430399) { break L1; }
   L18: {
    final long t19 = l1 = (l3 = Words.get64(b, ((int) (l0 + 16L)) - 58912)) + 3L;
    final int t20 = (l1 + Long.MIN_VALUE < l3 + Long.MIN_VALUE) ? 1 : 0;
    if ((l11 = t20 != 0 ? -1L : t19) + Long.MIN_VALUE > (l1 = Words.get64(b, ((int) (l10 = l0 + 8L)) - 58912)) + Long.MIN_VALUE) { break L18; }
    b[((int) (l1 = Words.get64(b, ((int) l0) - 58912) + l3)) - 58910] = (byte) ((l9 & 63) | 128);
    b[((int) l1) - 58912] = (byte) ((l9 >>> 12) | 224);
    b[((int) l1) - 58911] = (byte) (((l9 >>> 6) & 63) | 128);
    l1 = Words.get64(b, ((int) l10) - 58912);
   }
   L21: {
    final long t22 = l10 = l3 + 6L;
    final int t23 = (l10 + Long.MIN_VALUE < l3 + Long.MIN_VALUE) ? 1 : 0;
    if ((l3 = t23 != 0 ? -1L : t22) + Long.MIN_VALUE > l1 + Long.MIN_VALUE) { break L21; }
    b[((int) (l1 = Words.get64(b, ((int) l0) - 58912) + l11)) - 58910] = (byte) 176;
    Words.put16(b, ((int) l1) - 58912, (short) 48612);
   }
   Words.put64(b, ((int) (l0 + 16L)) - 58912, l3);
  }
  l2 = (((l2 | l8) & 255) != 0) ? 1 : 0;
  L24: {
   if ((l6 & 255) == 0) { break L24; }
   l3 = (l6 & 0xffffffffL) & 255L;
   L25: {
    if (((((l5 & 255) != 0) ? 1 : 0) | (l2 ^ 1)) != 0) { break L25; }
    L26: {
     final long t27 = l11 = (l1 = Words.get64(b, ((int) (l10 = l0 + 16L)) - 58912)) + 3L;
     final int t28 = (l11 + Long.MIN_VALUE < l1 + Long.MIN_VALUE) ? 1 : 0;
     if ((l11 = t28 != 0 ? -1L : t27) + Long.MIN_VALUE > Words.get64(b, ((int) (l0 + 8L)) - 58912) + Long.MIN_VALUE) { break L26; }
     b[((int) (l1 = Words.get64(b, ((int) l0) - 58912) + l1)) - 58910] = (byte) 182;
     Words.put16(b, ((int) l1) - 58912, (short) 39913);
    }
    Words.put64(b, ((int) l10) - 58912, l11);
   }
   if (((l8 = Words.get32(b, ((int) ((((l4 & 255) != 0) ? 70000L : 69568L) + (l3 << 2L))) - 58912)) + -55296) + Integer.MIN_VALUE <= 2147430399) { break L1; }
   L29: {
    final long t30 = l1 = (l3 = Words.get64(b, ((int) (l0 + 16L)) - 58912)) + 3L;
    final int t31 = (l1 + Long.MIN_VALUE < l3 + Long.MIN_VALUE) ? 1 : 0;
    if ((l11 = t31 != 0 ? -1L : t30) + Long.MIN_VALUE > (l1 = Words.get64(b, ((int) (l10 = l0 + 8L)) - 58912)) + Long.MIN_VALUE) { break L29; }
    b[((int) (l1 = Words.get64(b, ((int) l0) - 58912) + l3)) - 58910] = (byte) ((l8 & 63) | 128);
    b[((int) l1) - 58912] = (byte) ((l8 >>> 12) | 224);
    b[((int) l1) - 58911] = (byte) (((l8 >>> 6) & 63) | 128);
    l1 = Words.get64(b, ((int) l10) - 58912);
   }
   L32: {
    final long t33 = l10 = l3 + 6L;
    final int t34 = (l10 + Long.MIN_VALUE < l3 + Long.MIN_VALUE) ? 1 : 0;
    if ((l3 = t34 != 0 ? -1L : t33) + Long.MIN_VALUE > l1 + Long.MIN_VALUE) { break L32; }
    b[((int) (l1 = Words.get64(b, ((int) l0) - 58912) + l11)) - 58910] = (byte) 190;
    Words.put16(b, ((int) l1) - 58912, (short) 35814);
   }
   Words.put64(b, ((int) (l0 + 16L)) - 58912, l3);
  }
  L35: {
   if ((l7 & 255) == 0) { break L35; }
   l3 = (l7 & 0xffffffffL) & 255L;
   L36: {
    if ((l6 & 255) != 0) { break L36; }
    if ((l2 | (((l5 & 255) != 0) ? 1 : 0)) == 0) { break L36; }
    L37: {
     final long t38 = l11 = (l1 = Words.get64(b, ((int) (l10 = l0 + 16L)) - 58912)) + 3L;
     final int t39 = (l11 + Long.MIN_VALUE < l1 + Long.MIN_VALUE) ? 1 : 0;
     if ((l11 = t39 != 0 ? -1L : t38) + Long.MIN_VALUE > Words.get64(b, ((int) (l0 + 8L)) - 58912) + Long.MIN_VALUE) { break L37; }
     b[((int) (l1 = Words.get64(b, ((int) l0) - 58912) + l1)) - 58910] = (byte) 182;
     Words.put16(b, ((int) l1) - 58912, (short) 39913);
    }
    Words.put64(b, ((int) l10) - 58912, l11);
   }
   if (((l5 = Words.get32(b, ((int) ((((l4 & 255) != 0) ? 70000L : 69568L) + (l3 << 2L))) - 58912)) + -55296) + Integer.MIN_VALUE <= 2147430399) { break L1; }
   L40: {
    final long t41 = l10 = (l3 = Words.get64(b, ((int) (l1 = l0 + 16L)) - 58912)) + 3L;
    final int t42 = (l10 + Long.MIN_VALUE < l3 + Long.MIN_VALUE) ? 1 : 0;
    if ((l10 = t42 != 0 ? -1L : t41) + Long.MIN_VALUE > Words.get64(b, ((int) (l0 + 8L)) - 58912) + Long.MIN_VALUE) { break L40; }
    b[((int) (l0 = Words.get64(b, ((int) l0) - 58912) + l3)) - 58910] = (byte) ((l5 & 63) | 128);
    b[((int) l0) - 58912] = (byte) ((l5 >>> 12) | 224);
    b[((int) l0) - 58911] = (byte) (((l5 >>> 6) & 63) | 128);
   }
   Words.put64(b, ((int) l1) - 58912, l10);
  }
  return;
 }
 throw State.trap();
}

static int f70(State m, long l0, long l1, long l2) {
 final byte[] b = m.bytes;
 long l3 = 0;
 long l4 = 0;
 long l5 = 0;
 long l6 = 0;
 long l7 = 0;
 long l8 = 0;
 long l9 = 0;
 long l10 = 0;
 long l11 = 0;
 long l12 = 0;
 long l13 = 0;
 int l14 = 0;
 int l15 = 0;
 int l16 = 0;
 int l17 = 0;
 int l18 = 0;
 int l19 = 0;
 int l20 = 0;
 int l21 = 0;
 m.g0 = l3 = m.g0 - 32L;
 L1: {
  L2: {
   L3: {
    if ((l4 = l3) < 16L) { break L3; }
    Words.put64(b, ((int) l2) - 58912, 0L);
    Words.put64(b, ((int) l2) - 58904, 0L);
    Words.put64(b, ((int) l2) - 58896, 0L);
    Words.put64(b, ((int) l4) - 58888, 0L);
    Words.put64(b, ((int) l4) - 58896, 0L);
    Words.put64(b, ((int) l4) - 58904, 0L);
    l5 = l1;
    l3 = l0;
    L4: {
     L5: {
      L6: {
       if (l1 + Long.MIN_VALUE < -9223372036854775804L) { break L6; }
       l3 = l0;
       l5 = l1;
       L7: while (true) {
        if (((Words.get32(b, ((int) l3) - 58912) + 16776990) & 12632312) != 8421376) { break L5; }
        l3 = l3 + 3L;
        if ((l5 = l5 + -3L) + Long.MIN_VALUE > -9223372036854775805L) { continue L7; }
        break L7;
       }
      }
      if (l5 + Long.MIN_VALUE > -9223372036854775805L) { break L5; }
      L8: {
       switch ((int) l5) {
       case 1: case 2: break L5;
       case 3: break L8;
       default: break L4;
       }
      }
      if (((((Words.get16(b, ((int) l3) - 58912) & 0xffff) | ((b[((int) (l3 + 2L)) - 58912] & 0xff) << 16)) + 16776990) & 12632312) == 8421376) { break L4; }
     }
     l14 = 5;
     if (Core1.f6(m, l0, l1) == 0) { break L1; }
    }
    L9: {
     if (l1 == 0L) { break L9; }
     l15 = 0;
     l6 = 0L;
     l7 = l1;
     l5 = l0;
     l8 = 0L;
     l9 = 0L;
     l10 = 0L;
     l16 = 0;
     l17 = 0;
     L10: {
      L11: while (true) {
       l18 = l16;
       l14 = (l16 = (int) b[((int) l5) - 58912]) & 255;
       l11 = 1L;
       L12: {
        L13: {
         if (l16 <= -1) { break L13; }
         l12 = 1L;
         break L12;
        }
        l19 = (b[((int) l5) - 58911] & 0xff) & 63;
        L14: {
         if (l16 + Integer.MIN_VALUE > 2147483615) { break L14; }
         l14 = ((l14 << 6) & 1984) | l19;
         l12 = 2L;
         break L12;
        }
        l20 = (b[((int) l5) - 58910] & 0xff) & 63;
        L15: {
         if (l16 + Integer.MIN_VALUE > 2147483631) { break L15; }
         l14 = ((l19 << 6) | ((l14 << 12) & 61440)) | l20;
         l12 = 3L;
         break L12;
        }
        l14 = ((l20 << 6) | ((l19 << 12) | ((l14 << 18) & 1835008))) | ((b[((int) l5) - 58909] & 0xff) & 63);
        l12 = 4L;
       }
       L16: {
        if (Words.get32(b, State.far((int) (l3 = (((l14 * 3227) >>> 7) & 0xffffffffL) & 504L), 65536)) == l14) { break L16; }
        l3 = 1L;
        break L10;
       }
       L17: {
        if (((b[((int) (l3 + 65540L)) - 58912] & 0xff) & 255) == 1) { break L17; }
        l3 = 1L;
        break L10;
       }
       l13 = b[((int) (l3 + 65542L)) - 58912] & 0xffL;
       l14 = b[((int) (l3 + 65541L)) - 58912] & 0xff;
       l3 = 1L;
       L18: {
        L19: {
         L20: {
          L21: {
           L22: {
            L23: {
             L24: {
              L25: {
               L26: {
                L27: {
                 L28: {
                  L29: {
                   L30: {
                    L31: {
                     L32: {
                      L33: {
                       L34: {
                        L35: {
                         L36: {
                          L37: {
                           L38: {
                            L39: {
                             L40: {
                              L41: {
                               L42: {
                                L43: {
                                 L44: {
                                  L45: {
                                   L46: {
                                    L47: {
                                     L48: {
                                      L49: {
                                       L50: {
                                        L51: {
                                         L52: {
                                          L53: {
                                           switch ((int) ((l17 & 0xffffffffL) & 255L)) {
                                           case 1: break L44;
                                           case 2: break L43;
                                           case 3: break L42;
                                           case 4: break L41;
                                           case 5: break L53;
                                           case 6: break L52;
                                           case 7: break L51;
                                           case 8: break L50;
                                           case 9: break L49;
                                           case 10: break L48;
                                           case 11: break L47;
                                           case 12: break L46;
                                           case 13: break L40;
                                           case 14: break L38;
                                           case 15: break L36;
                                           case 16: break L37;
                                           case 17: break L39;
                                           case 18: break L34;
                                           case 19: break L10;
                                           default: break L45;
                                           }
                                          }
                                          L54: {
                                           if (((1 << l14) & 261375) != 0) { break L54; }
                                           if (l14 != 8) { break L21; }
                                           break L20;
                                          }
                                          L55: {
                                           if ((l14 + -5) + Integer.MIN_VALUE < -2147483635) { break L55; }
                                           l16 = 0;
                                           switch (l14) {
                                           case 2: break L31;
                                           case 3: break L30;
                                           case 4: break L28;
                                           default: break L55;
                                           }
                                          }
                                          l16 = 0;
                                          l17 = 6;
                                          l3 = 1L;
                                          switch (l14) {
                                          case 5: break L25;
                                          case 6: break L24;
                                          case 7: break L22;
                                          default: break L10;
                                          }
                                         }
                                         L56: {
                                          if ((l14 + -6) + Integer.MIN_VALUE < -2147483636) { break L56; }
                                          l20 = 3;
                                          l19 = 10;
                                          l21 = l14;
                                          l3 = 1L;
                                          L57: {
                                           switch (l14) {
                                           case 1: break L32;
                                           case 2: case 3: case 4: break L56;
                                           case 5: break L10;
                                           default: break L57;
                                           }
                                          }
                                          l16 = 1;
                                          l15 = (l18 & 1) | 2;
                                          l17 = 9;
                                          break L18;
                                         }
                                         l16 = 1;
                                         if (l14 == 6) { break L24; }
                                         if (l14 == 7) { break L22; }
                                         l3 = 1L;
                                         break L10;
                                        }
                                        L58: {
                                         if ((l14 + -6) + Integer.MIN_VALUE < -2147483636) { break L58; }
                                         l20 = 3;
                                         l21 = 4;
                                         l19 = 10;
                                         l3 = 1L;
                                         L59: {
                                          switch (l14) {
                                          case 1: break L32;
                                          case 2: case 3: case 4: break L58;
                                          case 5: break L10;
                                          default: break L59;
                                          }
                                         }
                                         l15 = 3;
                                         l16 = (l18 & 1) ^ 3;
                                         l17 = 9;
                                         break L18;
                                        }
                                        l16 = 1;
                                        l17 = 8;
                                        if (l14 == 5) { break L25; }
                                        if (l14 == 7) { break L22; }
                                        l3 = 1L;
                                        break L10;
                                       }
                                       l16 = 1;
                                       l20 = 3;
                                       l21 = 5;
                                       l19 = 10;
                                       l3 = 1L;
                                       L60: {
                                        switch (l14) {
                                        case 1: break L32;
                                        case 2: case 3: case 4: case 5: case 6: case 8: case 9: case 10: case 11: case 12: case 13: case 14: case 15: case 16: case 17: break L10;
                                        case 7: break L22;
                                        default: break L60;
                                        }
                                       }
                                       l15 = (l18 & 1) | 2;
                                       l16 = 5;
                                       l17 = 9;
                                       break L18;
                                      }
                                      if (l14 == 1) { break L33; }
                                      l3 = 1L;
                                      break L10;
                                     }
                                     L61: {
                                      L62: {
                                       L63: {
                                        L64: {
                                         switch ((int) ((l15 & 0xffffffffL) & 255L)) {
                                         case 1: break L62;
                                         case 2: break L63;
                                         case 3: break L64;
                                         default: break L61;
                                         }
                                        }
                                        l16 = l18;
                                        if (l14 == 4) { break L28; }
                                        l3 = 1L;
                                        break L10;
                                       }
                                       l16 = l18;
                                       if (l14 == 3) { break L30; }
                                       l3 = 1L;
                                       break L10;
                                      }
                                      l16 = l18;
                                      if (l14 == 2) { break L31; }
                                      l3 = 1L;
                                      break L10;
                                     }
                                     L65: {
                                      L66: {
                                       L67: {
                                        L68: {
                                         L69: {
                                          switch ((int) ((l18 & 0xffffffffL) & 255L)) {
                                          case 1: break L66;
                                          case 2: case 3: break L68;
                                          case 4: break L67;
                                          case 5: break L65;
                                          default: break L69;
                                          }
                                         }
                                         l16 = 0;
                                         l17 = 6;
                                         l3 = 1L;
                                         switch (l14) {
                                         case 5: break L25;
                                         case 6: break L24;
                                         case 7: break L22;
                                         default: break L10;
                                         }
                                        }
                                        l16 = 0;
                                        l17 = 8;
                                        if (l14 == 5) { break L25; }
                                        if (l14 == 7) { break L22; }
                                        l3 = 1L;
                                        break L10;
                                       }
                                       if (l14 == 5) { break L27; }
                                       l3 = 1L;
                                       break L10;
                                      }
                                      l16 = 0;
                                      if (l14 == 6) { break L24; }
                                      if (l14 == 7) { break L22; }
                                      l3 = 1L;
                                      break L10;
                                     }
                                     if (l14 == 7) { break L23; }
                                     l3 = 1L;
                                     break L10;
                                    }
                                    L70: {
                                     L71: {
                                      L72: {
                                       L73: {
                                        switch ((int) ((l15 & 0xffffffffL) & 255L)) {
                                        case 1: break L71;
                                        case 2: break L72;
                                        case 3: break L73;
                                        default: break L70;
                                        }
                                       }
                                       L74: {
                                        if ((l14 + -5) + Integer.MIN_VALUE < -2147483635) { break L74; }
                                        l16 = l18;
                                        switch (l14) {
                                        case 2: break L31;
                                        case 3: break L30;
                                        case 4: break L29;
                                        default: break L74;
                                        }
                                       }
                                       L75: {
                                        L76: {
                                         L77: {
                                          L78: {
                                           L79: {
                                            switch ((int) ((l18 & 0xffffffffL) & 255L)) {
                                            case 1: break L76;
                                            case 2: case 3: break L78;
                                            case 4: break L77;
                                            case 5: break L75;
                                            default: break L79;
                                            }
                                           }
                                           l16 = 0;
                                           l17 = 6;
                                           l3 = 1L;
                                           switch (l14) {
                                           case 5: break L25;
                                           case 6: break L24;
                                           case 7: break L22;
                                           default: break L10;
                                           }
                                          }
                                          l16 = 0;
                                          l17 = 8;
                                          if (l14 == 5) { break L25; }
                                          if (l14 == 7) { break L22; }
                                          l3 = 1L;
                                          break L10;
                                         }
                                         if (l14 == 5) { break L27; }
                                         l3 = 1L;
                                         break L10;
                                        }
                                        l16 = 0;
                                        if (l14 == 6) { break L24; }
                                        if (l14 == 7) { break L22; }
                                        l3 = 1L;
                                        break L10;
                                       }
                                       if (l14 == 7) { break L23; }
                                       l3 = 1L;
                                       break L10;
                                      }
                                      L80: {
                                       if ((l14 + -4) + Integer.MIN_VALUE < -2147483634) { break L80; }
                                       l16 = l18;
                                       switch (l14) {
                                       case 2: break L31;
                                       case 3: break L30;
                                       default: break L80;
                                       }
                                      }
                                      L81: {
                                       L82: {
                                        L83: {
                                         L84: {
                                          L85: {
                                           switch ((int) ((l18 & 0xffffffffL) & 255L)) {
                                           case 1: break L82;
                                           case 2: case 3: break L84;
                                           case 4: break L83;
                                           case 5: break L81;
                                           default: break L85;
                                           }
                                          }
                                          l16 = 0;
                                          l17 = 6;
                                          l3 = 1L;
                                          switch (l14) {
                                          case 5: break L25;
                                          case 6: break L24;
                                          case 7: break L22;
                                          default: break L10;
                                          }
                                         }
                                         l16 = 0;
                                         l17 = 8;
                                         if (l14 == 5) { break L25; }
                                         if (l14 == 7) { break L22; }
                                         l3 = 1L;
                                         break L10;
                                        }
                                        if (l14 == 5) { break L27; }
                                        l3 = 1L;
                                        break L10;
                                       }
                                       l16 = 0;
                                       if (l14 == 6) { break L24; }
                                       if (l14 == 7) { break L22; }
                                       l3 = 1L;
                                       break L10;
                                      }
                                      if (l14 == 7) { break L23; }
                                      l3 = 1L;
                                      break L10;
                                     }
                                     L86: {
                                      if ((l14 + -5) + Integer.MIN_VALUE < -2147483635) { break L86; }
                                      l16 = l18;
                                      l3 = 1L;
                                      switch (l14) {
                                      case 2: break L31;
                                      case 3: case 4: break L10;
                                      default: break L86;
                                      }
                                     }
                                     L87: {
                                      L88: {
                                       L89: {
                                        L90: {
                                         L91: {
                                          switch ((int) ((l18 & 0xffffffffL) & 255L)) {
                                          case 1: break L88;
                                          case 2: case 3: break L90;
                                          case 4: break L89;
                                          case 5: break L87;
                                          default: break L91;
                                          }
                                         }
                                         l16 = 0;
                                         l17 = 6;
                                         l3 = 1L;
                                         switch (l14) {
                                         case 5: break L25;
                                         case 6: break L24;
                                         case 7: break L22;
                                         default: break L10;
                                         }
                                        }
                                        l16 = 0;
                                        l17 = 8;
                                        if (l14 == 5) { break L25; }
                                        if (l14 == 7) { break L22; }
                                        l3 = 1L;
                                        break L10;
                                       }
                                       if (l14 == 5) { break L27; }
                                       l3 = 1L;
                                       break L10;
                                      }
                                      l16 = 0;
                                      if (l14 == 6) { break L24; }
                                      if (l14 == 7) { break L22; }
                                      l3 = 1L;
                                      break L10;
                                     }
                                     if (l14 == 7) { break L23; }
                                     l3 = 1L;
                                     break L10;
                                    }
                                    L92: {
                                     L93: {
                                      L94: {
                                       L95: {
                                        L96: {
                                         switch ((int) ((l18 & 0xffffffffL) & 255L)) {
                                         case 1: break L93;
                                         case 2: case 3: break L95;
                                         case 4: break L94;
                                         case 5: break L92;
                                         default: break L96;
                                         }
                                        }
                                        l16 = 0;
                                        l17 = 6;
                                        l3 = 1L;
                                        switch (l14) {
                                        case 5: break L25;
                                        case 6: break L24;
                                        case 7: break L22;
                                        default: break L10;
                                        }
                                       }
                                       l16 = 0;
                                       l17 = 8;
                                       if (l14 == 5) { break L25; }
                                       if (l14 == 7) { break L22; }
                                       l3 = 1L;
                                       break L10;
                                      }
                                      if (l14 == 5) { break L27; }
                                      l3 = 1L;
                                      break L10;
                                     }
                                     l16 = 0;
                                     if (l14 == 6) { break L24; }
                                     if (l14 == 7) { break L22; }
                                     l3 = 1L;
                                     break L10;
                                    }
                                    if (l14 == 7) { break L23; }
                                    l3 = 1L;
                                    break L10;
                                   }
                                   L97: {
                                    L98: {
                                     L99: {
                                      L100: {
                                       L101: {
                                        L102: {
                                         L103: {
                                          switch ((int) ((l15 & 0xffffffffL) & 255L)) {
                                          case 1: break L101;
                                          case 2: break L102;
                                          case 3: break L103;
                                          default: break L100;
                                          }
                                         }
                                         L104: {
                                          if ((l14 + -2) + Integer.MIN_VALUE < -2147483632) { break L104; }
                                          l15 = 1;
                                          l17 = 9;
                                          l20 = 2;
                                          l19 = 10;
                                          l21 = l18;
                                          l16 = l18;
                                          switch (l14) {
                                          case 1: break L32;
                                          default: break L18;
                                          }
                                         }
                                         L105: {
                                          L106: {
                                           L107: {
                                            L108: {
                                             L109: {
                                              switch ((int) ((l18 & 0xffffffffL) & 255L)) {
                                              case 1: break L106;
                                              case 2: case 3: break L108;
                                              case 4: break L107;
                                              case 5: break L105;
                                              default: break L109;
                                              }
                                             }
                                             l16 = 1;
                                             l17 = 6;
                                             l3 = 1L;
                                             switch (l14 + -2) {
                                             case 3: break L25;
                                             case 4: break L24;
                                             case 5: break L22;
                                             default: break L10;
                                             }
                                            }
                                            l16 = 1;
                                            l17 = 8;
                                            if (l14 == 5) { break L25; }
                                            if (l14 == 7) { break L22; }
                                            l3 = 1L;
                                            break L10;
                                           }
                                           if (l14 == 5) { break L99; }
                                           l3 = 1L;
                                           break L10;
                                          }
                                          l16 = 1;
                                          if (l14 == 6) { break L24; }
                                          if (l14 == 7) { break L22; }
                                          l3 = 1L;
                                          break L10;
                                         }
                                         L110: {
                                          if (l14 == 7) { break L110; }
                                          l3 = 1L;
                                          break L10;
                                         }
                                         l16 = 1;
                                         break L22;
                                        }
                                        L111: {
                                         if ((l14 + -2) + Integer.MIN_VALUE < -2147483632) { break L111; }
                                         l17 = 9;
                                         l19 = 10;
                                         l21 = l18;
                                         l20 = l14;
                                         l16 = l18;
                                         l15 = l14;
                                         switch (l14) {
                                         case 1: break L32;
                                         default: break L18;
                                         }
                                        }
                                        L112: {
                                         L113: {
                                          L114: {
                                           L115: {
                                            L116: {
                                             switch ((int) ((l18 & 0xffffffffL) & 255L)) {
                                             case 1: break L113;
                                             case 2: case 3: break L115;
                                             case 4: break L114;
                                             case 5: break L112;
                                             default: break L116;
                                             }
                                            }
                                            l16 = 1;
                                            l17 = 6;
                                            l3 = 1L;
                                            switch (l14 + -2) {
                                            case 3: break L25;
                                            case 4: break L24;
                                            case 5: break L22;
                                            default: break L10;
                                            }
                                           }
                                           l16 = 1;
                                           l17 = 8;
                                           if (l14 == 5) { break L25; }
                                           if (l14 == 7) { break L22; }
                                           l3 = 1L;
                                           break L10;
                                          }
                                          if (l14 == 5) { break L99; }
                                          l3 = 1L;
                                          break L10;
                                         }
                                         l16 = 1;
                                         if (l14 == 6) { break L24; }
                                         if (l14 == 7) { break L22; }
                                         l3 = 1L;
                                         break L10;
                                        }
                                        L117: {
                                         if (l14 == 7) { break L117; }
                                         l3 = 1L;
                                         break L10;
                                        }
                                        l16 = 1;
                                        break L22;
                                       }
                                       L118: {
                                        if ((l14 + -2) + Integer.MIN_VALUE < -2147483632) { break L118; }
                                        l20 = 0;
                                        l19 = 10;
                                        l21 = l18;
                                        l3 = 1L;
                                        switch (l14) {
                                        case 1: break L32;
                                        default: break L10;
                                        }
                                       }
                                       L119: {
                                        L120: {
                                         L121: {
                                          L122: {
                                           L123: {
                                            switch ((int) ((l18 & 0xffffffffL) & 255L)) {
                                            case 1: break L120;
                                            case 2: case 3: break L122;
                                            case 4: break L121;
                                            case 5: break L119;
                                            default: break L123;
                                            }
                                           }
                                           l16 = 1;
                                           l17 = 6;
                                           l3 = 1L;
                                           switch (l14 + -2) {
                                           case 3: break L25;
                                           case 4: break L24;
                                           case 5: break L22;
                                           default: break L10;
                                           }
                                          }
                                          l16 = 1;
                                          l17 = 8;
                                          if (l14 == 5) { break L25; }
                                          if (l14 == 7) { break L22; }
                                          l3 = 1L;
                                          break L10;
                                         }
                                         if (l14 == 5) { break L99; }
                                         l3 = 1L;
                                         break L10;
                                        }
                                        l16 = 1;
                                        if (l14 == 6) { break L24; }
                                        if (l14 == 7) { break L22; }
                                        l3 = 1L;
                                        break L10;
                                       }
                                       L124: {
                                        if (l14 == 7) { break L124; }
                                        l3 = 1L;
                                        break L10;
                                       }
                                       l16 = 1;
                                       break L22;
                                      }
                                      L125: {
                                       L126: {
                                        L127: {
                                         switch ((int) ((l18 & 0xffffffffL) & 255L)) {
                                         case 1: break L98;
                                         case 2: case 3: break L126;
                                         case 4: break L125;
                                         case 5: break L97;
                                         default: break L127;
                                         }
                                        }
                                        l16 = 1;
                                        l17 = 6;
                                        l3 = 1L;
                                        switch (l14) {
                                        case 5: break L25;
                                        case 6: break L24;
                                        case 7: break L22;
                                        default: break L10;
                                        }
                                       }
                                       l16 = 1;
                                       l17 = 8;
                                       if (l14 == 5) { break L25; }
                                       if (l14 == 7) { break L22; }
                                       l3 = 1L;
                                       break L10;
                                      }
                                      if (l14 == 5) { break L99; }
                                      l3 = 1L;
                                      break L10;
                                     }
                                     l16 = 1;
                                     break L26;
                                    }
                                    l16 = 1;
                                    if (l14 == 6) { break L24; }
                                    if (l14 == 7) { break L22; }
                                    l3 = 1L;
                                    break L10;
                                   }
                                   L128: {
                                    if (l14 == 7) { break L128; }
                                    l3 = 1L;
                                    break L10;
                                   }
                                   l16 = 1;
                                   break L22;
                                  }
                                  l19 = 5;
                                  l21 = 0;
                                  l17 = 1;
                                  l20 = 0;
                                  l16 = 0;
                                  l15 = 0;
                                  l3 = 1L;
                                  switch (l14) {
                                  case 1: break L32;
                                  case 2: case 3: case 4: case 5: case 6: case 7: case 8: case 9: case 10: case 12: case 13: case 14: case 15: case 16: case 17: break L10;
                                  case 11: break L18;
                                  default: break L35;
                                  }
                                 }
                                 L129: {
                                  if (l14 == 12) { break L129; }
                                  l3 = 1L;
                                  break L10;
                                 }
                                 l16 = 0;
                                 l17 = 2;
                                 break L19;
                                }
                                L130: {
                                 if (l14 == 13) { break L130; }
                                 l3 = 1L;
                                 break L10;
                                }
                                l16 = 0;
                                l17 = 3;
                                break L19;
                               }
                               l21 = 0;
                               l19 = 5;
                               l20 = 0;
                               l3 = 1L;
                               switch (l14) {
                               case 1: break L32;
                               case 2: case 3: case 4: case 5: case 6: case 7: case 8: case 9: case 10: case 11: case 12: case 13: case 14: case 15: case 16: case 17: break L10;
                               default: break L35;
                               }
                              }
                              L131: {
                               if (l14 == 7) { break L131; }
                               l3 = 1L;
                               break L10;
                              }
                              l16 = 1;
                              break L22;
                             }
                             l19 = 16;
                             l21 = 0;
                             l17 = 19;
                             l20 = 0;
                             l16 = 0;
                             l15 = 0;
                             l3 = 1L;
                             L132: {
                              switch (l14) {
                              case 1: break L32;
                              case 2: case 3: case 4: case 5: case 6: case 7: case 8: case 9: case 11: case 12: case 13: case 14: case 15: case 16: case 17: break L10;
                              case 10: break L18;
                              default: break L132;
                              }
                             }
                             l16 = l18 & 1;
                             l17 = 14;
                             break L19;
                            }
                            l19 = 18;
                            l16 = 0;
                            l17 = 19;
                            L133: {
                             if (l14 != 1) { break L133; }
                             l21 = 0;
                             l20 = 0;
                             break L32;
                            }
                            l15 = 0;
                            if (l14 == 10) { break L18; }
                            l3 = 1L;
                            break L10;
                           }
                           L134: {
                            if (l14 == 1) { break L134; }
                            l3 = 1L;
                            break L10;
                           }
                           l21 = l18 & 1;
                           l20 = 0;
                           l19 = 15;
                           break L32;
                          }
                          if (l14 == 8) { break L20; }
                          l3 = 1L;
                          break L10;
                         }
                         if ((l18 & 1) == 0) { break L34; }
                         if (l14 == 8) { break L20; }
                         if (l14 == 9) { break L21; }
                         l3 = 1L;
                         break L10;
                        }
                        l16 = 0;
                        l17 = 4;
                        break L19;
                       }
                       if (l14 == 9) { break L21; }
                       l3 = 1L;
                       break L10;
                      }
                      l19 = 11;
                      l21 = l18;
                      l20 = l15;
                     }
                     l17 = l19;
                     l16 = l21;
                     l15 = l20;
                     l6 = l13;
                     break L18;
                    }
                    l9 = (l6 * 10L) + l9;
                    l6 = 0L;
                    l15 = 1;
                    l17 = 12;
                    break L18;
                   }
                   l9 = (l6 * 100L) + l9;
                   l6 = 0L;
                   l15 = 2;
                   l17 = 12;
                   break L18;
                  }
                  l16 = ((l18 & 255) == 3) ? 5 : l18;
                 }
                 l9 = (l6 * 1000L) + l9;
                 l6 = 0L;
                 l15 = 3;
                 l17 = 12;
                 break L18;
                }
                l16 = 0;
               }
               l17 = 8;
              }
              l10 = ((l9 + l6) * 10000L) + l10;
              l9 = 0L;
              l15 = 0;
              l6 = 0L;
              break L18;
             }
             l10 = ((l9 + l6) + l10) * 100000000L;
             l9 = 0L;
             l15 = 0;
             l17 = 7;
             l6 = 0L;
             break L18;
            }
            l16 = 0;
           }
           l10 = ((l9 + l6) + l10) * 100L;
           l9 = 0L;
           l15 = 0;
           l17 = 13;
           l6 = 0L;
           break L18;
          }
          l10 = l10 + l6;
          l6 = 0L;
          l16 = 0;
          l17 = 19;
          break L19;
         }
         l10 = l10 + (l6 * 10L);
         l6 = 0L;
         l16 = 0;
         l17 = 17;
        }
        l15 = 0;
       }
       l5 = l5 + l12;
       l8 = l8 + 1L;
       l3 = 0L;
       if ((l7 = l7 - l12) != 0L) { continue L11; }
       break L11;
      }
      L135: {
       if ((l17 + -1) + Integer.MIN_VALUE < -2147483632) { break L135; }
       l11 = l10;
       l8 = 0L;
       switch (l17 + -17) {
       case 1: break L135;
       default: break L10;
       }
      }
      l3 = 1L;
      l11 = 0L;
      l8 = 0L;
     }
     Words.put64(b, ((int) l4) - 58888, l8);
     Words.put64(b, ((int) l4) - 58896, l11);
     Words.put64(b, ((int) l4) - 58904, l3);
     break L2;
    }
    Words.put64(b, ((int) l4) - 58896, 0L);
    Words.put64(b, ((int) l4) - 58904, 1L);
    Words.put64(b, ((int) l4) - 58888, 0L);
    break L2;
   }
   throw State.trap();
  }
  l14 = f71(m, l0, l1, l4 + 8L, l2);
 }
 m.g0 = l4 + 32L;
 return l14;
}

static int f71(State m, long l0, long l1, long l2, long l3) {
 final byte[] b = m.bytes;
 long l4 = 0;
 long l5 = 0;
 long l6 = 0;
 int l7 = 0;
 m.g0 = l4 = m.g0 - 16L;
 L1: {
  if ((l5 = l4) < 16L) { break L1; }
  l4 = Words.get64(b, ((int) (l2 + 16L)) - 58912);
  l6 = Words.get64(b, ((int) (l2 + 8L)) - 58912);
  l7 = b[((int) l2) - 58912] & 0xff;
  Words.put64(b, ((int) l3) - 58896, 0L);
  Words.put64(b, ((int) l3) - 58904, 0L);
  Words.put64(b, ((int) l3) - 58912, 0L);
  L2: {
   L3: {
    if (l7 != 0) { break L3; }
    Words.put64(b, ((int) l3) - 58912, l6);
    l7 = 0;
    break L2;
   }
   L4: {
    if (!((l6 & 255L) == 0L)) { break L4; }
    l7 = 9;
    break L2;
   }
   Words.put64(b, ((int) l3) - 58904, l4);
   l2 = 0L;
   L5: {
    if (l4 + Long.MIN_VALUE < -9223372036854775792L) { break L5; }
    Core1.f25(m, l5, l0, l1, l4);
    l4 = Words.get64(b, ((int) l5) - 58904);
    l2 = Words.get64(b, ((int) l5) - 58912);
   }
   L6: {
    if (l4 + Long.MIN_VALUE < -9223372036854775805L) { break L6; }
    L7: while (true) {
     if ((l1 - l2) + Long.MIN_VALUE < -9223372036854775800L) { break L6; }
     L8: {
      L9: {
       if (((l6 = Words.get64(b, ((int) (l0 + l2)) - 58912)) & 67553998437089520L) != 63050398541283552L) { break L9; }
       l4 = l4 + -3L;
       l2 = l2 + 9L;
       break L8;
      }
      if (l4 + Long.MIN_VALUE < -9223372036854775800L) { break L6; }
      if ((l6 & -9187201950435737472L) != 0L) { break L6; }
      l4 = l4 + -8L;
      l2 = l2 + 8L;
     }
     if (l4 + Long.MIN_VALUE > -9223372036854775806L) { continue L7; }
     break L7;
    }
   }
   L10: {
    if (l4 == 0L) { break L10; }
    if (l1 + Long.MIN_VALUE <= l2 + Long.MIN_VALUE) { break L10; }
    l4 = l4 + -1L;
    L11: while (true) {
     l2 = Words.get64(b, ((int) (((((b[((int) (l0 + l2)) - 58912] & 0xff) >>> 1) & 0xffffffffL) & 120L) + 66680L)) - 58912) + l2;
     if (l4 == 0L) { break L10; }
     l4 = l4 + -1L;
     if (l1 + Long.MIN_VALUE > l2 + Long.MIN_VALUE) { continue L11; }
     break L11;
    }
   }
   Words.put64(b, ((int) l3) - 58896, l2);
   l7 = 2;
  }
  m.g0 = l5 + 16L;
  final int t12 = l7;
  return t12;
 }
 throw State.trap();
}

static int f72(State m, long l0, long l1, long l2) {
 final byte[] b = m.bytes;
 long l3 = 0;
 long l4 = 0;
 long l5 = 0;
 long l6 = 0;
 long l7 = 0;
 long l8 = 0;
 long l9 = 0;
 long l10 = 0;
 long l11 = 0;
 long l12 = 0;
 long l13 = 0;
 long l14 = 0;
 int l15 = 0;
 int l16 = 0;
 int l17 = 0;
 int l18 = 0;
 int l19 = 0;
 int l20 = 0;
 int l21 = 0;
 int l22 = 0;
 m.g0 = l3 = m.g0 - 176L;
 L1: {
  if ((l3 = l3) < 16L) { break L1; }
  Words.put64(b, ((int) l2) - 58912, 0L);
  Words.put64(b, ((int) l2) - 58904, 0L);
  Words.put64(b, ((int) l2) - 58896, 0L);
  Words.put64(b, ((int) l3) - 58896, 0L);
  Words.put64(b, ((int) l3) - 58904, 0L);
  Words.put64(b, ((int) l3) - 58912, 0L);
  l4 = l1;
  l5 = l0;
  L2: {
   L3: {
    L4: {
     L5: {
      if (l1 + Long.MIN_VALUE < -9223372036854775804L) { break L5; }
      l5 = l0;
      l4 = l1;
      L6: while (true) {
       if (((Words.get32(b, ((int) l5) - 58912) + 16776990) & 12632312) != 8421376) { break L4; }
       l5 = l5 + 3L;
       if ((l4 = l4 + -3L) + Long.MIN_VALUE > -9223372036854775805L) { continue L6; }
       break L6;
      }
     }
     if (l4 + Long.MIN_VALUE > -9223372036854775805L) { break L4; }
     L7: {
      switch ((int) l4) {
      case 1: case 2: break L4;
      case 3: break L7;
      default: break L3;
      }
     }
     if (((((Words.get16(b, ((int) l5) - 58912) & 0xffff) | ((b[((int) (l5 + 2L)) - 58912] & 0xff) << 16)) + 16776990) & 12632312) == 8421376) { break L3; }
    }
    l15 = 5;
    if (Core1.f6(m, l0, l1) == 0) { break L2; }
   }
   Words.put32(b, ((int) l3) - 58832, 0);
   b[((int) l3) - 58828] = (byte) 0;
   Words.put32(b, ((int) l3) - 58840, 0);
   Words.put32(b, ((int) l3) - 58837, 0);
   l6 = 0L;
   Words.put64(b, ((int) l3) - 58856, 0L);
   Words.put64(b, ((int) l3) - 58848, 0L);
   Words.put32(b, ((int) l3) - 58864, 0);
   b[((int) l3) - 58860] = (byte) 0;
   Words.put32(b, ((int) l3) - 58872, 0);
   Words.put32(b, ((int) l3) - 58869, 0);
   Words.put64(b, ((int) l3) - 58888, 0L);
   Words.put64(b, ((int) l3) - 58880, 0L);
   L8: {
    L9: {
     L10: {
      L11: {
       L12: {
        if (l1 == 0L) { break L12; }
        l7 = l3 + 160L;
        l8 = l3 + 145L;
        l9 = l3 + 139L;
        l10 = l3 + 112L;
        l11 = l3 + 97L;
        l12 = (l3 + 88L) | 3L;
        l16 = 1;
        l17 = 3;
        l4 = l1;
        l5 = l0;
        l13 = 0L;
        l18 = 1;
        l19 = 1;
        L13: while (true) {
         l14 = l5 + 1L;
         l15 = (l20 = (int) b[((int) l5) - 58912]) & 255;
         L14: {
          L15: {
           L16: {
            L17: {
             L18: {
              L19: {
               if (l20 < 0) { break L19; }
               Words.put64(b, ((int) l3) - 58784, 0L);
               Words.put64(b, ((int) l3) - 58776, 0L);
               Words.put64(b, ((int) l3) - 58768, 0L);
               Words.put64(b, ((int) l3) - 58760, 0L);
               Words.put64(b, ((int) l3) - 58752, 0L);
               Words.put64(b, ((int) l3) - 58744, 0L);
               l4 = l4 + -1L;
               l5 = l14;
               break L18;
              }
              l21 = (b[((int) l14) - 58912] & 0xff) & 63;
              L20: {
               L21: {
                if (l20 + Integer.MIN_VALUE > 2147483615) { break L21; }
                l15 = ((l15 << 6) & 1984) | l21;
                l14 = 2L;
                break L20;
               }
               l22 = (b[((int) l5) - 58910] & 0xff) & 63;
               L22: {
                if (l20 + Integer.MIN_VALUE > 2147483631) { break L22; }
                l15 = ((l21 << 6) | ((l15 << 12) & 61440)) | l22;
                l14 = 3L;
                break L20;
               }
               l15 = ((l22 << 6) | ((l21 << 12) | ((l15 << 18) & 1835008))) | ((b[((int) l5) - 58909] & 0xff) & 63);
               l14 = 4L;
              }
              Words.put64(b, ((int) l3) - 58784, 0L);
              Words.put64(b, ((int) l3) - 58776, 0L);
              Words.put64(b, ((int) l3) - 58768, 0L);
              Words.put64(b, ((int) l3) - 58760, 0L);
              Words.put64(b, ((int) l3) - 58752, 0L);
              Words.put64(b, ((int) l3) - 58744, 0L);
              l4 = l4 - l14;
              l5 = l5 + l14;
              if (l15 + Integer.MIN_VALUE > -2147483521) { break L17; }
             }
             if ((l15 + -9) + Integer.MIN_VALUE < -2147483643) { break L15; }
             if (l15 != 32) { break L16; }
             break L15;
            }
            if ((l15 + -8192) + Integer.MIN_VALUE < -2147483637) { break L15; }
            L23: {
             if (l15 > 8231) { break L23; }
             if (l15 == 133) { break L15; }
             if (l15 == 160) { break L15; }
             if (l15 != 5760) { break L16; }
             break L15;
            }
            L24: {
             if ((l20 = l15 + -8232) + Integer.MIN_VALUE > -2147483593) { break L24; }
             if (((1L << (l20 & 0xffffffffL)) & 36028797018964099L) != 0L) { break L15; }
            }
            if (l15 == 12288) { break L15; }
           }
           Words.put32(b, ((int) l12) - 58912, Words.get32(b, ((int) l3) - 58832));
           b[((int) l12) - 58908] = (byte) (b[((int) l3) - 58828] & 0xff);
           Words.put32(b, ((int) l11) - 58912, Words.get32(b, ((int) l3) - 58840));
           Words.put32(b, ((int) l11) - 58909, Words.get32(b, ((int) l3) - 58837));
           Words.put64(b, ((int) l10) - 58912, Words.get64(b, ((int) l3) - 58856));
           Words.put64(b, ((int) l10) - 58904, Words.get64(b, ((int) l3) - 58848));
           b[((int) l3) - 58822] = (byte) l16;
           b[((int) l3) - 58823] = (byte) l18;
           b[((int) l3) - 58824] = (byte) l19;
           b[((int) l3) - 58816] = (byte) l17;
           Words.put64(b, ((int) l3) - 58808, l13);
           Core1.f21(m, l3 + 128L, l3 + 88L, l15);
           if ((b[((int) l3) - 58784] & 0xff) != 1) { break L11; }
           Words.put32(b, ((int) l3) - 58864, Words.get32(b, ((int) l9) - 58912));
           b[((int) l3) - 58860] = (byte) (b[((int) l9) - 58908] & 0xff);
           Words.put32(b, ((int) l3) - 58872, Words.get32(b, ((int) l8) - 58912));
           Words.put32(b, ((int) l3) - 58869, Words.get32(b, ((int) l8) - 58909));
           Words.put64(b, ((int) l3) - 58888, Words.get64(b, ((int) l7) - 58912));
           Words.put64(b, ((int) l3) - 58880, Words.get64(b, ((int) l7) - 58904));
           l13 = Words.get64(b, ((int) l3) - 58760);
           l17 = b[((int) l3) - 58768] & 0xff;
           l16 = b[((int) l3) - 58774] & 0xff;
           l18 = b[((int) l3) - 58775] & 0xff;
           l19 = b[((int) l3) - 58776] & 0xff;
           break L14;
          }
          b[((int) l3) - 58860] = (byte) (b[((int) l3) - 58828] & 0xff);
          Words.put32(b, ((int) l3) - 58864, Words.get32(b, ((int) l3) - 58832));
          Words.put32(b, ((int) l3) - 58872, Words.get32(b, ((int) l3) - 58840));
          Words.put32(b, ((int) l3) - 58869, Words.get32(b, ((int) l3) - 58837));
          Words.put64(b, ((int) l3) - 58888, Words.get64(b, ((int) l3) - 58856));
          Words.put64(b, ((int) l3) - 58880, Words.get64(b, ((int) l3) - 58848));
         }
         Words.put32(b, ((int) l3) - 58832, Words.get32(b, ((int) l3) - 58864));
         b[((int) l3) - 58828] = (byte) (b[((int) l3) - 58860] & 0xff);
         Words.put32(b, ((int) l3) - 58840, Words.get32(b, ((int) l3) - 58872));
         Words.put32(b, ((int) l3) - 58837, Words.get32(b, ((int) l3) - 58869));
         Words.put64(b, ((int) l3) - 58856, Words.get64(b, ((int) l3) - 58888));
         Words.put64(b, ((int) l3) - 58848, Words.get64(b, ((int) l3) - 58880));
         l6 = l6 + 1L;
         if (l4 != 0L) { continue L13; }
         break L13;
        }
        if ((l15 = l17 & 255) + Integer.MIN_VALUE < -2147483631) { break L12; }
        switch (l15 + -17) {
        case 1: break L12;
        default: break L10;
        }
       }
       l5 = 1L;
       l13 = 0L;
       break L9;
      }
      l13 = 1L;
      l5 = 1L;
      break L8;
     }
     l5 = 0L;
    }
    l6 = 0L;
   }
   Words.put64(b, ((int) l3) - 58896, l6);
   Words.put64(b, ((int) l3) - 58904, l13);
   Words.put64(b, ((int) l3) - 58912, l5);
   l15 = f71(m, l0, l1, l3, l2);
  }
  m.g0 = l3 + 176L;
  final int t25 = l15;
  return t25;
 }
 throw State.trap();
}

static int f73(State m, long l0, long l1, long l2) {
 final byte[] b = m.bytes;
 long l3 = 0;
 long l4 = 0;
 long l5 = 0;
 long l6 = 0;
 long l7 = 0;
 int l8 = 0;
 int l9 = 0;
 int l10 = 0;
 int l11 = 0;
 m.g0 = l3 = m.g0 - 48L;
 L1: {
  if ((l3 = l3) < 16L) { break L1; }
  Words.put64(b, ((int) l2) - 58888, 0L);
  Words.put64(b, ((int) l2) - 58896, 0L);
  Words.put64(b, ((int) l2) - 58904, 0L);
  Words.put64(b, ((int) l2) - 58912, 0L);
  l4 = l1;
  l5 = l0;
  L2: {
   L3: {
    L4: {
     L5: {
      if (l1 + Long.MIN_VALUE < -9223372036854775804L) { break L5; }
      l5 = l0;
      l4 = l1;
      L6: while (true) {
       if (((Words.get32(b, ((int) l5) - 58912) + 16776990) & 12632312) != 8421376) { break L4; }
       l5 = l5 + 3L;
       if ((l4 = l4 + -3L) + Long.MIN_VALUE > -9223372036854775805L) { continue L6; }
       break L6;
      }
     }
     if (l4 + Long.MIN_VALUE > -9223372036854775805L) { break L4; }
     L7: {
      switch ((int) l4) {
      case 1: case 2: break L4;
      case 3: break L7;
      default: break L3;
      }
     }
     if (((((Words.get16(b, ((int) l5) - 58912) & 0xffff) | ((b[((int) (l5 + 2L)) - 58912] & 0xff) << 16)) + 16776990) & 12632312) == 8421376) { break L3; }
    }
    if (Core1.f6(m, l0, l1) != 0) { break L3; }
    l8 = 5;
    break L2;
   }
   Words.put16(b, ((int) l3) - 58872, (short) 0);
   l6 = 0L;
   Words.put64(b, ((int) l3) - 58880, 0L);
   b[((int) l3) - 58872] = (byte) 0;
   Words.put64(b, ((int) l3) - 58896, 0L);
   Words.put32(b, ((int) l3) - 58888, 0);
   L8: {
    if (l1 != 0L) { break L8; }
    Words.put64(b, ((int) l2) - 58888, 0L);
    Words.put64(b, ((int) l2) - 58896, 0L);
    Words.put64(b, ((int) l2) - 58904, 0L);
    Words.put64(b, ((int) l2) - 58912, 0L);
    l8 = 9;
    break L2;
   }
   l7 = l1;
   l5 = l0;
   L9: {
    L10: while (true) {
     l8 = (l9 = (int) b[((int) l5) - 58912]) & 255;
     l4 = 1L;
     L11: {
      if (l9 > -1) { break L11; }
      l10 = (b[((int) l5) - 58911] & 0xff) & 63;
      L12: {
       if (l9 + Integer.MIN_VALUE > 2147483615) { break L12; }
       l8 = ((l8 << 6) & 1984) | l10;
       l4 = 2L;
       break L11;
      }
      l11 = (b[((int) l5) - 58910] & 0xff) & 63;
      L13: {
       if (l9 + Integer.MIN_VALUE > 2147483631) { break L13; }
       l8 = ((l10 << 6) | ((l8 << 12) & 61440)) | l11;
       l4 = 3L;
       break L11;
      }
      l8 = ((l11 << 6) | ((l10 << 12) | ((l8 << 18) & 1835008))) | ((b[((int) l5) - 58909] & 0xff) & 63);
      l4 = 4L;
     }
     Core1.f22(m, l3 + 16L, l3 + 32L, l8);
     if ((b[((int) l3) - 58896] & 0xff) != 1) { break L9; }
     b[((int) l3) - 58872] = (byte) (b[((int) l3) - 58886] & 0xff);
     Words.put16(b, ((int) l3) - 58874, (short) (Words.get16(b, ((int) l3) - 58888) & 0xffff));
     Words.put32(b, ((int) l3) - 58878, l8 = Words.get32(b, ((int) l3) - 58892));
     Words.put16(b, ((int) l3) - 58880, (short) (l9 = (b[((int) l3) - 58894] & 0xff) & 255));
     l6 = l6 + 1L;
     l5 = l5 + l4;
     if ((l7 = l7 - l4) != 0L) { continue L10; }
     break L10;
    }
    Words.put64(b, ((int) l2) - 58888, 0L);
    Words.put64(b, ((int) l2) - 58896, 0L);
    Words.put64(b, ((int) l2) - 58904, 0L);
    Words.put64(b, ((int) l2) - 58912, 0L);
    L14: {
     if (l9 == 3) { break L14; }
     l8 = 9;
     break L2;
    }
    Words.put32(b, ((int) l2) - 58904, l8 >>> 24);
    Words.put32(b, ((int) l2) - 58912, l8 & 65535);
    Words.put32(b, ((int) l2) - 58908, (l8 >>> 16) & 255);
    l8 = 0;
    break L2;
   }
   l5 = 0L;
   Words.put64(b, ((int) l2) - 58888, 0L);
   Words.put64(b, ((int) l2) - 58904, 0L);
   Words.put64(b, ((int) l2) - 58912, 0L);
   Words.put64(b, ((int) l2) - 58896, l6);
   L15: {
    if (l6 + Long.MIN_VALUE < -9223372036854775792L) { break L15; }
    Core1.f25(m, l3, l0, l1, l6);
    l6 = Words.get64(b, ((int) l3) - 58904);
    l5 = Words.get64(b, ((int) l3) - 58912);
   }
   L16: {
    if (l6 + Long.MIN_VALUE < -9223372036854775805L) { break L16; }
    L17: while (true) {
     if ((l1 - l5) + Long.MIN_VALUE < -9223372036854775800L) { break L16; }
     L18: {
      L19: {
       if (((l4 = Words.get64(b, ((int) (l0 + l5)) - 58912)) & 67553998437089520L) != 63050398541283552L) { break L19; }
       l6 = l6 + -3L;
       l5 = l5 + 9L;
       break L18;
      }
      if (l6 + Long.MIN_VALUE < -9223372036854775800L) { break L16; }
      if ((l4 & -9187201950435737472L) != 0L) { break L16; }
      l6 = l6 + -8L;
      l5 = l5 + 8L;
     }
     if (l6 + Long.MIN_VALUE > -9223372036854775806L) { continue L17; }
     break L17;
    }
   }
   L20: {
    if (l6 == 0L) { break L20; }
    if (l1 + Long.MIN_VALUE <= l5 + Long.MIN_VALUE) { break L20; }
    l4 = l6 + -1L;
    L21: while (true) {
     l5 = Words.get64(b, ((int) (((((b[((int) (l0 + l5)) - 58912] & 0xff) >>> 1) & 0xffffffffL) & 120L) + 66680L)) - 58912) + l5;
     if (l4 == 0L) { break L20; }
     l4 = l4 + -1L;
     if (l1 + Long.MIN_VALUE > l5 + Long.MIN_VALUE) { continue L21; }
     break L21;
    }
   }
   Words.put64(b, ((int) l2) - 58888, l5);
   l8 = 2;
  }
  m.g0 = l3 + 48L;
  final int t22 = l8;
  return t22;
 }
 throw State.trap();
}

static int f74(State m, long l0, int l1, int l2, long l3, long l4, long l5) {
 final byte[] b = m.bytes;
 long l6 = 0;
 long l7 = 0;
 long l8 = 0;
 long l9 = 0;
 m.g0 = l6 = m.g0 - 176L;
 L1: {
  if ((l7 = l6) < 16L) { break L1; }
  m.fill((int) (l7 + 11L), 0, (int) 117L);
  Words.put64(b, ((int) l7) - 58744, 0L);
  Words.put64(b, ((int) l7) - 58752, 117L);
  Words.put32(b, ((int) l7) - 58764, l2);
  b[((int) l7) - 58765] = (byte) l1;
  Words.put16(b, ((int) l7) - 58768, (short) 0);
  Words.put64(b, ((int) l7) - 58776, 0L);
  Words.put64(b, ((int) l7) - 58784, 0L);
  Words.put64(b, ((int) l7) - 58760, l7 + 11L);
  f67(m, l7 + 128L, l0);
  f68(m, l7 + 152L, l7 + 147L, l7 + 128L);
  l0 = Words.get64(b, ((int) l7) - 58760);
  final int t2 = (int) l5;
  final long t3 = l6 = Words.get64(b, ((int) l7) - 58744);
  final int t4 = l2 = (Words.get64(b, ((int) l7) - 58752) + Long.MIN_VALUE < l6 + Long.MIN_VALUE) ? 1 : 0;
  Words.put64(b, t2 - 58912, l6 = t4 != 0 ? 0L : t3);
  L5: {
   L6: {
    if (l4 + Long.MIN_VALUE >= l6 + Long.MIN_VALUE) { break L6; }
    l2 = 6;
    break L5;
   }
   L7: {
    L8: {
     if ((l3 - (l8 = l2 != 0 ? 83372L : l0)) + Long.MIN_VALUE >= l6 + Long.MIN_VALUE) { break L8; }
     l0 = l6 & 3L;
     l5 = 0L;
     L9: {
      if (l6 + Long.MIN_VALUE < -9223372036854775804L) { break L9; }
      l9 = l6 & -4L;
      l5 = 0L;
      L10: while (true) {
       b[((int) (l6 = l3 + l5)) - 58912] = (byte) (b[((int) (l4 = l8 + l5)) - 58912] & 0xff);
       b[((int) (l6 + 1L)) - 58912] = (byte) (b[((int) (l4 + 1L)) - 58912] & 0xff);
       b[((int) (l6 + 2L)) - 58912] = (byte) (b[((int) (l4 + 2L)) - 58912] & 0xff);
       b[((int) (l6 + 3L)) - 58912] = (byte) (b[((int) (l4 + 3L)) - 58912] & 0xff);
       if (l9 != (l5 = l5 + 4L)) { continue L10; }
       break L10;
      }
      if (l0 == 0L) { break L7; }
     }
     l6 = l3 + l5;
     l5 = l8 + l5;
     L11: while (true) {
      b[((int) l6) - 58912] = (byte) (b[((int) l5) - 58912] & 0xff);
      l6 = l6 + 1L;
      l5 = l5 + 1L;
      if ((l0 = l0 + -1L) != 0L) { continue L11; }
      break L7;
     }
    }
    if (l6 == 0L) { break L7; }
    m.copy((int) l3, (int) l8, (int) l6);
   }
   l2 = 0;
  }
  m.g0 = l7 + 176L;
  final int t12 = l2;
  return t12;
 }
 throw State.trap();
}

static int f75(State m, long l0, long l1, long l2) {
 final byte[] b = m.bytes;
 long l3 = 0;
 long l4 = 0;
 long l5 = 0;
 long l6 = 0;
 long l7 = 0;
 int l8 = 0;
 m.g0 = l3 = m.g0 - 48L;
 L1: {
  if ((l4 = l3) < 16L) { break L1; }
  Words.put64(b, ((int) l2) - 58912, 0L);
  Words.put64(b, ((int) l2) - 58904, 0L);
  Words.put64(b, ((int) l2) - 58896, 0L);
  Words.put64(b, ((int) l4) - 58872, 0L);
  Words.put64(b, ((int) l4) - 58880, 0L);
  Words.put64(b, ((int) l4) - 58888, 0L);
  l5 = l1;
  l3 = l0;
  L2: {
   L3: {
    L4: {
     L5: {
      if (l1 + Long.MIN_VALUE < -9223372036854775804L) { break L5; }
      l3 = l0;
      l5 = l1;
      L6: while (true) {
       if (((Words.get32(b, ((int) l3) - 58912) + 16776990) & 12632312) != 8421376) { break L4; }
       l3 = l3 + 3L;
       if ((l5 = l5 + -3L) + Long.MIN_VALUE > -9223372036854775805L) { continue L6; }
       break L6;
      }
     }
     if (l5 + Long.MIN_VALUE > -9223372036854775805L) { break L4; }
     L7: {
      switch ((int) l5) {
      case 1: case 2: break L4;
      case 3: break L7;
      default: break L3;
      }
     }
     if (((((Words.get16(b, ((int) l3) - 58912) & 0xffff) | ((b[((int) (l3 + 2L)) - 58912] & 0xff) << 16)) + 16776990) & 12632312) == 8421376) { break L3; }
    }
    if (Core1.f6(m, l0, l1) != 0) { break L3; }
    l8 = 5;
    break L2;
   }
   f60(m, l4 + 24L, l0, l1);
   Words.put64(b, ((int) l2) - 58912, 0L);
   Words.put64(b, ((int) l2) - 58904, 0L);
   Words.put64(b, ((int) l2) - 58896, 0L);
   l3 = Words.get64(b, ((int) l4) - 58880);
   L8: {
    if ((b[((int) l4) - 58888] & 0xff) != 0) { break L8; }
    Words.put64(b, ((int) l2) - 58912, l3);
    l8 = 0;
    break L2;
   }
   l8 = 9;
   L9: {
    L10: {
     switch ((int) (l3 & 255L)) {
     case 1: break L9;
     case 2: break L10;
     default: break L2;
     }
    }
    l8 = 3;
    break L2;
   }
   l3 = 0L;
   l5 = l6 = Words.get64(b, ((int) l4) - 58872);
   L11: {
    if (l6 + Long.MIN_VALUE < -9223372036854775792L) { break L11; }
    Core1.f25(m, l4 + 8L, l0, l1, l6);
    l5 = Words.get64(b, ((int) l4) - 58896);
    l3 = Words.get64(b, ((int) l4) - 58904);
   }
   L12: {
    if (l5 + Long.MIN_VALUE < -9223372036854775805L) { break L12; }
    L13: while (true) {
     if ((l1 - l3) + Long.MIN_VALUE < -9223372036854775800L) { break L12; }
     L14: {
      L15: {
       if (((l7 = Words.get64(b, ((int) (l0 + l3)) - 58912)) & 67553998437089520L) != 63050398541283552L) { break L15; }
       l5 = l5 + -3L;
       l3 = l3 + 9L;
       break L14;
      }
      if (l5 + Long.MIN_VALUE < -9223372036854775800L) { break L12; }
      if ((l7 & -9187201950435737472L) != 0L) { break L12; }
      l5 = l5 + -8L;
      l3 = l3 + 8L;
     }
     if (l5 + Long.MIN_VALUE > -9223372036854775806L) { continue L13; }
     break L13;
    }
   }
   L16: {
    if (l5 == 0L) { break L16; }
    if (l1 + Long.MIN_VALUE <= l3 + Long.MIN_VALUE) { break L16; }
    l5 = l5 + -1L;
    L17: while (true) {
     l3 = Words.get64(b, ((int) (((((b[((int) (l0 + l3)) - 58912] & 0xff) >>> 1) & 0xffffffffL) & 120L) + 66680L)) - 58912) + l3;
     if (l5 == 0L) { break L16; }
     l5 = l5 + -1L;
     if (l1 + Long.MIN_VALUE > l3 + Long.MIN_VALUE) { continue L17; }
     break L17;
    }
   }
   Words.put64(b, ((int) l2) - 58896, l3);
   Words.put64(b, ((int) l2) - 58904, l6);
   Words.put64(b, ((int) l2) - 58912, 0L);
   l8 = 2;
  }
  m.g0 = l4 + 48L;
  final int t18 = l8;
  return t18;
 }
 throw State.trap();
}

static int f76(State m, long l0, long l1, long l2) {
 final byte[] b = m.bytes;
 long l3 = 0;
 long l4 = 0;
 long l5 = 0;
 long l6 = 0;
 long l7 = 0;
 long l8 = 0;
 int l9 = 0;
 int l10 = 0;
 int l11 = 0;
 int l12 = 0;
 m.g0 = l3 = m.g0 - 112L;
 L1: {
  if ((l3 = l3) < 16L) { break L1; }
  Words.put64(b, ((int) l2) - 58912, 0L);
  Words.put64(b, ((int) l2) - 58904, 0L);
  Words.put64(b, ((int) l2) - 58896, 0L);
  Words.put64(b, ((int) l3) - 58896, 0L);
  Words.put64(b, ((int) l3) - 58904, 0L);
  Words.put64(b, ((int) l3) - 58912, 0L);
  l4 = l1;
  l5 = l0;
  L2: {
   L3: {
    L4: {
     L5: {
      if (l1 + Long.MIN_VALUE < -9223372036854775804L) { break L5; }
      l5 = l0;
      l4 = l1;
      L6: while (true) {
       if (((Words.get32(b, ((int) l5) - 58912) + 16776990) & 12632312) != 8421376) { break L4; }
       l5 = l5 + 3L;
       if ((l4 = l4 + -3L) + Long.MIN_VALUE > -9223372036854775805L) { continue L6; }
       break L6;
      }
     }
     if (l4 + Long.MIN_VALUE > -9223372036854775805L) { break L4; }
     L7: {
      switch ((int) l4) {
      case 1: case 2: break L4;
      case 3: break L7;
      default: break L3;
      }
     }
     if (((((Words.get16(b, ((int) l5) - 58912) & 0xffff) | ((b[((int) (l5 + 2L)) - 58912] & 0xff) << 16)) + 16776990) & 12632312) == 8421376) { break L3; }
    }
    l9 = 5;
    if (Core1.f6(m, l0, l1) == 0) { break L2; }
   }
   l6 = 0L;
   Words.put64(b, ((int) l3) - 58840, 0L);
   Words.put64(b, ((int) l3) - 58832, 0L);
   Words.put64(b, ((int) l3) - 58824, 0L);
   Words.put64(b, ((int) l3) - 58816, 0L);
   Words.put64(b, ((int) l3) - 58808, 0L);
   Words.put64(b, ((int) l3) - 58848, 0L);
   Words.put64(b, ((int) l3) - 58856, 0L);
   Words.put64(b, ((int) l3) - 58864, 0L);
   Words.put64(b, ((int) l3) - 58872, 0L);
   Words.put64(b, ((int) l3) - 58880, 0L);
   Words.put64(b, ((int) l3) - 58888, 0L);
   L8: {
    L9: {
     L10: {
      L11: {
       L12: {
        if (l1 == 0L) { break L12; }
        l5 = l3 + 32L;
        l7 = l1;
        l4 = l0;
        L13: while (true) {
         l9 = (l10 = (int) b[((int) l4) - 58912]) & 255;
         l8 = 1L;
         L14: {
          if (l10 > -1) { break L14; }
          l11 = (b[((int) l4) - 58911] & 0xff) & 63;
          L15: {
           if (l10 + Integer.MIN_VALUE > 2147483615) { break L15; }
           l9 = ((l9 << 6) & 1984) | l11;
           l8 = 2L;
           break L14;
          }
          l12 = (b[((int) l4) - 58910] & 0xff) & 63;
          L16: {
           if (l10 + Integer.MIN_VALUE > 2147483631) { break L16; }
           l9 = ((l11 << 6) | ((l9 << 12) & 61440)) | l12;
           l8 = 3L;
           break L14;
          }
          l9 = ((l12 << 6) | ((l11 << 12) | ((l9 << 18) & 1835008))) | ((b[((int) l4) - 58909] & 0xff) & 63);
          l8 = 4L;
         }
         Core1.f20(m, l3 + 24L, l3 + 72L, l9);
         if ((b[((int) l3) - 58888] & 0xff) != 1) { break L11; }
         Words.put64(b, ((int) l3) - 58808, Words.get64(b, ((int) l5) - 58880));
         Words.put64(b, ((int) l3) - 58816, Words.get64(b, ((int) l5) - 58888));
         Words.put64(b, ((int) l3) - 58824, Words.get64(b, ((int) l5) - 58896));
         Words.put64(b, ((int) l3) - 58832, Words.get64(b, ((int) l5) - 58904));
         Words.put64(b, ((int) l3) - 58840, Words.get64(b, ((int) l5) - 58912));
         l6 = l6 + 1L;
         l4 = l4 + l8;
         if ((l7 = l7 - l8) != 0L) { continue L13; }
         break L13;
        }
        if ((l5 = Words.get64(b, ((int) l3) - 58839) >>> 56L) + Long.MIN_VALUE < -9223372036854775791L) { break L12; }
        switch (((int) l5) + -17) {
        case 1: break L12;
        default: break L10;
        }
       }
       l5 = 1L;
       l4 = 0L;
       break L9;
      }
      l4 = 1L;
      l5 = 1L;
      break L8;
     }
     l5 = 0L;
     final long t17 = 0L - (l4 = Words.get64(b, ((int) l3) - 58824));
     final long t18 = l4;
     final int t19 = ((b[((int) l3) - 58840] & 0xff) == 2) ? 1 : 0;
     l4 = t19 != 0 ? t17 : t18;
    }
    l6 = 0L;
   }
   Words.put64(b, ((int) l3) - 58896, l6);
   Words.put64(b, ((int) l3) - 58904, l4);
   Words.put64(b, ((int) l3) - 58912, l5);
   l9 = f77(m, l0, l1, l3, l2);
  }
  m.g0 = l3 + 112L;
  final int t20 = l9;
  return t20;
 }
 throw State.trap();
}

static int f77(State m, long l0, long l1, long l2, long l3) {
 final byte[] b = m.bytes;
 long l4 = 0;
 long l5 = 0;
 long l6 = 0;
 long l7 = 0;
 int l8 = 0;
 m.g0 = l4 = m.g0 - 16L;
 L1: {
  if ((l5 = l4) < 16L) { break L1; }
  l6 = Words.get64(b, ((int) (l2 + 16L)) - 58912);
  l4 = Words.get64(b, ((int) (l2 + 8L)) - 58912);
  l8 = b[((int) l2) - 58912] & 0xff;
  Words.put64(b, ((int) l3) - 58896, 0L);
  Words.put64(b, ((int) l3) - 58904, 0L);
  Words.put64(b, ((int) l3) - 58912, 0L);
  L2: {
   L3: {
    if (l8 != 0) { break L3; }
    Words.put64(b, ((int) l3) - 58912, l4);
    l8 = 0;
    break L2;
   }
   L4: {
    if (!((l4 & 255L) == 0L)) { break L4; }
    l8 = 9;
    break L2;
   }
   l2 = 0L;
   l4 = l6;
   L5: {
    if (l6 + Long.MIN_VALUE < -9223372036854775792L) { break L5; }
    Core1.f25(m, l5, l0, l1, l6);
    l4 = Words.get64(b, ((int) l5) - 58904);
    l2 = Words.get64(b, ((int) l5) - 58912);
   }
   L6: {
    if (l4 + Long.MIN_VALUE < -9223372036854775805L) { break L6; }
    L7: while (true) {
     if ((l1 - l2) + Long.MIN_VALUE < -9223372036854775800L) { break L6; }
     L8: {
      L9: {
       if (((l7 = Words.get64(b, ((int) (l0 + l2)) - 58912)) & 67553998437089520L) != 63050398541283552L) { break L9; }
       l4 = l4 + -3L;
       l2 = l2 + 9L;
       break L8;
      }
      if (l4 + Long.MIN_VALUE < -9223372036854775800L) { break L6; }
      if ((l7 & -9187201950435737472L) != 0L) { break L6; }
      l4 = l4 + -8L;
      l2 = l2 + 8L;
     }
     if (l4 + Long.MIN_VALUE > -9223372036854775806L) { continue L7; }
     break L7;
    }
   }
   L10: {
    if (l4 == 0L) { break L10; }
    if (l1 + Long.MIN_VALUE <= l2 + Long.MIN_VALUE) { break L10; }
    l4 = l4 + -1L;
    L11: while (true) {
     l2 = Words.get64(b, ((int) (((((b[((int) (l0 + l2)) - 58912] & 0xff) >>> 1) & 0xffffffffL) & 120L) + 66680L)) - 58912) + l2;
     if (l4 == 0L) { break L10; }
     l4 = l4 + -1L;
     if (l1 + Long.MIN_VALUE > l2 + Long.MIN_VALUE) { continue L11; }
     break L11;
    }
   }
   Words.put64(b, ((int) l3) - 58896, l2);
   Words.put64(b, ((int) l3) - 58904, l6);
   Words.put64(b, ((int) l3) - 58912, 0L);
   l8 = 2;
  }
  m.g0 = l5 + 16L;
  final int t12 = l8;
  return t12;
 }
 throw State.trap();
}

static int f78(State m, long l0, long l1, long l2) {
 final byte[] b = m.bytes;
 long l3 = 0;
 long l4 = 0;
 long l5 = 0;
 long l6 = 0;
 long l7 = 0;
 long l8 = 0;
 long l9 = 0;
 long l10 = 0;
 long l11 = 0;
 long l12 = 0;
 long l13 = 0;
 long l14 = 0;
 int l15 = 0;
 int l16 = 0;
 int l17 = 0;
 int l18 = 0;
 int l19 = 0;
 int l20 = 0;
 int l21 = 0;
 int l22 = 0;
 m.g0 = l3 = m.g0 - 176L;
 L1: {
  if ((l3 = l3) < 16L) { break L1; }
  Words.put64(b, ((int) l2) - 58912, 0L);
  Words.put64(b, ((int) l2) - 58904, 0L);
  Words.put64(b, ((int) l2) - 58896, 0L);
  Words.put64(b, ((int) l3) - 58896, 0L);
  Words.put64(b, ((int) l3) - 58904, 0L);
  Words.put64(b, ((int) l3) - 58912, 0L);
  l4 = l1;
  l5 = l0;
  L2: {
   L3: {
    L4: {
     L5: {
      if (l1 + Long.MIN_VALUE < -9223372036854775804L) { break L5; }
      l5 = l0;
      l4 = l1;
      L6: while (true) {
       if (((Words.get32(b, ((int) l5) - 58912) + 16776990) & 12632312) != 8421376) { break L4; }
       l5 = l5 + 3L;
       if ((l4 = l4 + -3L) + Long.MIN_VALUE > -9223372036854775805L) { continue L6; }
       break L6;
      }
     }
     if (l4 + Long.MIN_VALUE > -9223372036854775805L) { break L4; }
     L7: {
      switch ((int) l4) {
      case 1: case 2: break L4;
      case 3: break L7;
      default: break L3;
      }
     }
     if (((((Words.get16(b, ((int) l5) - 58912) & 0xffff) | ((b[((int) (l5 + 2L)) - 58912] & 0xff) << 16)) + 16776990) & 12632312) == 8421376) { break L3; }
    }
    l15 = 5;
    if (Core1.f6(m, l0, l1) == 0) { break L2; }
   }
   l16 = 0;
   Words.put32(b, ((int) l3) - 58832, 0);
   b[((int) l3) - 58828] = (byte) 0;
   Words.put32(b, ((int) l3) - 58840, 0);
   Words.put32(b, ((int) l3) - 58837, 0);
   l6 = 0L;
   Words.put64(b, ((int) l3) - 58856, 0L);
   Words.put64(b, ((int) l3) - 58848, 0L);
   Words.put32(b, ((int) l3) - 58864, 0);
   b[((int) l3) - 58860] = (byte) 0;
   Words.put32(b, ((int) l3) - 58872, 0);
   Words.put32(b, ((int) l3) - 58869, 0);
   Words.put64(b, ((int) l3) - 58888, 0L);
   Words.put64(b, ((int) l3) - 58880, 0L);
   L8: {
    L9: {
     L10: {
      L11: {
       L12: {
        if (l1 == 0L) { break L12; }
        l7 = l3 + 160L;
        l8 = l3 + 145L;
        l9 = l3 + 139L;
        l10 = l3 + 112L;
        l11 = l3 + 97L;
        l12 = (l3 + 88L) | 3L;
        l17 = 1;
        l18 = 3;
        l4 = l1;
        l5 = l0;
        l13 = 0L;
        l19 = 1;
        L13: while (true) {
         l14 = l5 + 1L;
         l15 = (l20 = (int) b[((int) l5) - 58912]) & 255;
         L14: {
          L15: {
           L16: {
            L17: {
             L18: {
              L19: {
               if (l20 < 0) { break L19; }
               Words.put64(b, ((int) l3) - 58784, 0L);
               Words.put64(b, ((int) l3) - 58776, 0L);
               Words.put64(b, ((int) l3) - 58768, 0L);
               Words.put64(b, ((int) l3) - 58760, 0L);
               Words.put64(b, ((int) l3) - 58752, 0L);
               Words.put64(b, ((int) l3) - 58744, 0L);
               l4 = l4 + -1L;
               l5 = l14;
               break L18;
              }
              l21 = (b[((int) l14) - 58912] & 0xff) & 63;
              L20: {
               L21: {
                if (l20 + Integer.MIN_VALUE > 2147483615) { break L21; }
                l15 = ((l15 << 6) & 1984) | l21;
                l14 = 2L;
                break L20;
               }
               l22 = (b[((int) l5) - 58910] & 0xff) & 63;
               L22: {
                if (l20 + Integer.MIN_VALUE > 2147483631) { break L22; }
                l15 = ((l21 << 6) | ((l15 << 12) & 61440)) | l22;
                l14 = 3L;
                break L20;
               }
               l15 = ((l22 << 6) | ((l21 << 12) | ((l15 << 18) & 1835008))) | ((b[((int) l5) - 58909] & 0xff) & 63);
               l14 = 4L;
              }
              Words.put64(b, ((int) l3) - 58784, 0L);
              Words.put64(b, ((int) l3) - 58776, 0L);
              Words.put64(b, ((int) l3) - 58768, 0L);
              Words.put64(b, ((int) l3) - 58760, 0L);
              Words.put64(b, ((int) l3) - 58752, 0L);
              Words.put64(b, ((int) l3) - 58744, 0L);
              l4 = l4 - l14;
              l5 = l5 + l14;
              if (l15 + Integer.MIN_VALUE > -2147483521) { break L17; }
             }
             if ((l15 + -9) + Integer.MIN_VALUE < -2147483643) { break L15; }
             if (l15 != 32) { break L16; }
             break L15;
            }
            if ((l15 + -8192) + Integer.MIN_VALUE < -2147483637) { break L15; }
            L23: {
             if (l15 > 8231) { break L23; }
             if (l15 == 133) { break L15; }
             if (l15 == 160) { break L15; }
             if (l15 != 5760) { break L16; }
             break L15;
            }
            L24: {
             if ((l20 = l15 + -8232) + Integer.MIN_VALUE > -2147483593) { break L24; }
             if (((1L << (l20 & 0xffffffffL)) & 36028797018964099L) != 0L) { break L15; }
            }
            if (l15 == 12288) { break L15; }
           }
           Words.put32(b, ((int) l12) - 58912, Words.get32(b, ((int) l3) - 58832));
           b[((int) l12) - 58908] = (byte) (b[((int) l3) - 58828] & 0xff);
           Words.put32(b, ((int) l11) - 58912, Words.get32(b, ((int) l3) - 58840));
           Words.put32(b, ((int) l11) - 58909, Words.get32(b, ((int) l3) - 58837));
           Words.put64(b, ((int) l10) - 58912, Words.get64(b, ((int) l3) - 58856));
           Words.put64(b, ((int) l10) - 58904, Words.get64(b, ((int) l3) - 58848));
           b[((int) l3) - 58822] = (byte) l17;
           b[((int) l3) - 58823] = (byte) l16;
           b[((int) l3) - 58824] = (byte) l19;
           b[((int) l3) - 58816] = (byte) l18;
           Words.put64(b, ((int) l3) - 58808, l13);
           Core1.f21(m, l3 + 128L, l3 + 88L, l15);
           if ((b[((int) l3) - 58784] & 0xff) != 1) { break L11; }
           Words.put32(b, ((int) l3) - 58864, Words.get32(b, ((int) l9) - 58912));
           b[((int) l3) - 58860] = (byte) (b[((int) l9) - 58908] & 0xff);
           Words.put32(b, ((int) l3) - 58872, Words.get32(b, ((int) l8) - 58912));
           Words.put32(b, ((int) l3) - 58869, Words.get32(b, ((int) l8) - 58909));
           Words.put64(b, ((int) l3) - 58888, Words.get64(b, ((int) l7) - 58912));
           Words.put64(b, ((int) l3) - 58880, Words.get64(b, ((int) l7) - 58904));
           l13 = Words.get64(b, ((int) l3) - 58760);
           l18 = b[((int) l3) - 58768] & 0xff;
           l17 = b[((int) l3) - 58774] & 0xff;
           l16 = b[((int) l3) - 58775] & 0xff;
           l19 = b[((int) l3) - 58776] & 0xff;
           break L14;
          }
          b[((int) l3) - 58860] = (byte) (b[((int) l3) - 58828] & 0xff);
          Words.put32(b, ((int) l3) - 58864, Words.get32(b, ((int) l3) - 58832));
          Words.put32(b, ((int) l3) - 58872, Words.get32(b, ((int) l3) - 58840));
          Words.put32(b, ((int) l3) - 58869, Words.get32(b, ((int) l3) - 58837));
          Words.put64(b, ((int) l3) - 58888, Words.get64(b, ((int) l3) - 58856));
          Words.put64(b, ((int) l3) - 58880, Words.get64(b, ((int) l3) - 58848));
         }
         Words.put32(b, ((int) l3) - 58832, Words.get32(b, ((int) l3) - 58864));
         b[((int) l3) - 58828] = (byte) (b[((int) l3) - 58860] & 0xff);
         Words.put32(b, ((int) l3) - 58840, Words.get32(b, ((int) l3) - 58872));
         Words.put32(b, ((int) l3) - 58837, Words.get32(b, ((int) l3) - 58869));
         Words.put64(b, ((int) l3) - 58856, Words.get64(b, ((int) l3) - 58888));
         Words.put64(b, ((int) l3) - 58848, Words.get64(b, ((int) l3) - 58880));
         l6 = l6 + 1L;
         if (l4 != 0L) { continue L13; }
         break L13;
        }
        if ((l15 = l18 & 255) + Integer.MIN_VALUE < -2147483631) { break L12; }
        switch (l15 + -17) {
        case 1: break L12;
        default: break L10;
        }
       }
       l5 = 1L;
       l4 = 0L;
       break L9;
      }
      l4 = 1L;
      l5 = 1L;
      break L8;
     }
     l5 = 0L;
     final long t25 = 0L - l13;
     final long t26 = l13;
     final int t27 = ((l16 & 255) == 2) ? 1 : 0;
     l4 = t27 != 0 ? t25 : t26;
    }
    l6 = 0L;
   }
   Words.put64(b, ((int) l3) - 58896, l6);
   Words.put64(b, ((int) l3) - 58904, l4);
   Words.put64(b, ((int) l3) - 58912, l5);
   l15 = f77(m, l0, l1, l3, l2);
  }
  m.g0 = l3 + 176L;
  final int t28 = l15;
  return t28;
 }
 throw State.trap();
}

static void f79(State m, long l0, long l1, long l2, long l3, long l4) {
 final byte[] b = m.bytes;
 long l5 = 0;
 long l6 = 0;
 long l7 = 0;
 long l8 = 0;
 long l9 = 0;
 long l10 = 0;
 long l11 = 0;
 long l12 = 0;
 long l13 = 0;
 long l14 = 0;
 long l15 = 0;
 long l16 = 0;
 long l17 = 0;
 long l18 = 0;
 long l19 = 0;
 int l20 = 0;
 m.g0 = l5 = m.g0 - 320L;
 L1: {
  L2: {
   if ((l5 = l5) < 16L) { break L2; }
   Words.put64(b, ((int) l5) - 58664, 0L);
   Words.put64(b, ((int) l5) - 58672, 0L);
   Words.put64(b, ((int) l5) - 58736, 0L);
   Words.put64(b, ((int) l5) - 58728, 0L);
   Words.put64(b, ((int) l5) - 58720, 0L);
   Words.put64(b, ((int) l5) - 58712, 0L);
   Words.put64(b, ((int) l5) - 58704, 0L);
   Words.put64(b, ((int) l5) - 58696, 0L);
   Words.put64(b, ((int) l5) - 58688, 0L);
   Words.put64(b, ((int) l5) - 58680, 0L);
   Words.put64(b, ((int) l5) - 58752, 0L);
   Words.put64(b, ((int) l5) - 58744, 0L);
   Words.put64(b, ((int) l5) - 58768, 0L);
   Words.put64(b, ((int) l5) - 58760, 0L);
   Words.put64(b, ((int) l5) - 58600, 0L);
   Words.put64(b, ((int) l5) - 58608, 0L);
   Words.put64(b, ((int) l5) - 58616, 0L);
   Words.put64(b, ((int) l5) - 58624, 0L);
   Words.put64(b, ((int) l5) - 58632, 0L);
   Words.put64(b, ((int) l5) - 58640, 0L);
   Words.put64(b, ((int) l5) - 58648, 0L);
   Words.put64(b, ((int) l5) - 58656, 0L);
   Core3.f80(m, l5 + 256L, l3, l4, 1);
   L3: {
    L4: {
     if ((b[((int) l5) - 58656] & 0xff) != 0) { break L4; }
     if (((b[((int) l5) - 58608] & 0xff) & 255) != 2) { break L4; }
     Words.put64(b, ((int) l5) - 58600, 0L);
     Words.put64(b, ((int) l5) - 58608, 0L);
     Words.put64(b, ((int) l5) - 58616, 0L);
     Words.put64(b, ((int) l5) - 58624, 0L);
     Words.put64(b, ((int) l5) - 58632, 0L);
     Words.put64(b, ((int) l5) - 58640, 0L);
     Words.put64(b, ((int) l5) - 58648, 0L);
     Words.put64(b, ((int) l5) - 58656, 0L);
     Core3.f80(m, l5 + 256L, l1, l2, 1);
     l6 = 1L;
     l7 = 77254L;
     if ((b[((int) l5) - 58656] & 0xff) != 0) { break L3; }
     if (((b[((int) l5) - 58608] & 0xff) & 255) != 2) { break L3; }
    }
    Core3.f81(m, l5 + 128L, l1, l2, l3, l4);
    l6 = Words.get64(b, ((int) l5) - 58776);
    l7 = Words.get64(b, ((int) l5) - 58784);
   }
   Core3.f82(m, l5 + 176L, l1, l2, l7, l6);
   L5: {
    L6: {
     L7: {
      L8: {
       if ((b[((int) l5) - 58736] & 0xff) != 1) { break L8; }
       Words.put64(b, ((int) l5) - 58672, Words.get64(b, ((int) l5) - 58688));
       Words.put64(b, ((int) l5) - 58664, Words.get64(b, ((int) l5) - 58680));
       l8 = Words.get64(b, ((int) l5) - 58696);
       l9 = Words.get64(b, ((int) l5) - 58704);
       l6 = Words.get64(b, ((int) l5) - 58712);
       l7 = Words.get64(b, ((int) l5) - 58720);
       l10 = 0L;
       Words.put64(b, ((int) l5) - 58600, 0L);
       Words.put64(b, ((int) l5) - 58608, 0L);
       Words.put64(b, ((int) l5) - 58616, 0L);
       Words.put64(b, ((int) l5) - 58624, 0L);
       Words.put64(b, ((int) l5) - 58632, 0L);
       Words.put64(b, ((int) l5) - 58640, 0L);
       Words.put64(b, ((int) l5) - 58648, 0L);
       Words.put64(b, ((int) l5) - 58656, 0L);
       Core3.f80(m, l5 + 256L, l1, l2, 1);
       l2 = 83372L;
       L9: {
        if ((b[((int) l5) - 58656] & 0xff) != 0) { break L9; }
        if (((b[((int) l5) - 58608] & 0xff) & 255) != 2) { break L9; }
        Words.put64(b, ((int) l5) - 58600, 0L);
        Words.put64(b, ((int) l5) - 58608, 0L);
        Words.put64(b, ((int) l5) - 58616, 0L);
        Words.put64(b, ((int) l5) - 58624, 0L);
        Words.put64(b, ((int) l5) - 58632, 0L);
        Words.put64(b, ((int) l5) - 58640, 0L);
        Words.put64(b, ((int) l5) - 58648, 0L);
        Words.put64(b, ((int) l5) - 58656, 0L);
        Core3.f80(m, l5 + 256L, l3, l4, 1);
        l2 = ((l20 = ((((b[((int) l5) - 58656] & 0xff) & 255) != 0) | (((b[((int) l5) - 58608] & 0xff) & 255) != 2)) ? 1 : 0) != 0) ? 77254L : 83372L;
        l10 = l20 & 0xffffffffL;
       }
       Core3.f82(m, l5 + 176L, l3, l4, l2, l10);
       if ((b[((int) l5) - 58736] & 0xff) != 1) { break L7; }
       final long t10 = l5 + 80L;
       final long t11 = l3 = Words.get64(b, ((int) l5) - 58704);
       final long t12 = 0L - l7;
       final long t13 = l7;
       final int t14 = l20 = (l6 < 0L) ? 1 : 0;
       Core1.f3(m, t10, t11, 0L, l2 = t14 != 0 ? t12 : t13, 0L);
       Core1.f3(m, l5 + 64L, l10 = Words.get64(b, ((int) l5) - 58696), 0L, l2, 0L);
       final long t15 = l5 + 112L;
       final long t16 = l3;
       final long t17 = 0L - (l6 + ((l7 != 0L) ? 1L : 0L));
       final long t18 = l6;
       final int t19 = l20;
       Core1.f3(m, t15, t16, 0L, l2 = t19 != 0 ? t17 : t18, 0L);
       Core1.f3(m, l5 + 96L, l10, 0L, l2, 0L);
       final long t20 = l5 + 16L;
       final long t21 = 0L - (l2 = Words.get64(b, ((int) l5) - 58720));
       final long t22 = l2;
       final int t23 = l20 = ((l1 = Words.get64(b, ((int) l5) - 58712)) < 0L) ? 1 : 0;
       Core1.f3(m, t20, l4 = t23 != 0 ? t21 : t22, 0L, l9, 0L);
       Core1.f3(m, l5 + 48L, l4, 0L, l8, 0L);
       final long t24 = l5;
       final long t25 = 0L - (l1 + ((l2 != 0L) ? 1L : 0L));
       final long t26 = l1;
       final int t27 = l20;
       Core1.f3(m, t24, l4 = t27 != 0 ? t25 : t26, 0L, l9, 0L);
       Core1.f3(m, l5 + 32L, l4, 0L, l8, 0L);
       l20 = 0;
       if (((((Words.get64(b, ((int) l5) - 58792) + (((l12 = (l4 = (l11 = Words.get64(b, ((int) l5) - 58824)) + Words.get64(b, ((int) l5) - 58848)) + Words.get64(b, ((int) l5) - 58800)) + Long.MIN_VALUE < l4 + Long.MIN_VALUE) ? 1L : 0L)) | (l13 = (l11 = Words.get64(b, ((int) l5) - 58840) + ((l4 + Long.MIN_VALUE < l11 + Long.MIN_VALUE) ? 1L : 0L)) + Words.get64(b, ((int) l5) - 58816))) | ((Words.get64(b, ((int) l5) - 58904) + (((l15 = (l4 = (l14 = Words.get64(b, ((int) l5) - 58888)) + Words.get64(b, ((int) l5) - 58864)) + Words.get64(b, ((int) l5) - 58912)) + Long.MIN_VALUE < l4 + Long.MIN_VALUE) ? 1L : 0L)) | (l14 = (l4 = Words.get64(b, ((int) l5) - 58856) + ((l4 + Long.MIN_VALUE < l14 + Long.MIN_VALUE) ? 1L : 0L)) + Words.get64(b, ((int) l5) - 58880)))) | ((Words.get64(b, ((int) l5) - 58808) + ((l13 + Long.MIN_VALUE < l11 + Long.MIN_VALUE) ? 1L : 0L)) | (Words.get64(b, ((int) l5) - 58872) + ((l14 + Long.MIN_VALUE < l4 + Long.MIN_VALUE) ? 1L : 0L)))) == 0L) { break L6; }
       l4 = 0L;
       l11 = 0L;
       l13 = 0L;
       l14 = 0L;
       l16 = 0L;
       l17 = 0L;
       l18 = 0L;
       l19 = 0L;
       break L5;
      }
      m.fill((int) l0, 0, (int) 112L);
      break L1;
     }
     m.fill((int) l0, 0, (int) 112L);
     break L1;
    }
    l4 = 0L;
    l11 = 0L;
    l13 = 0L;
    l14 = 0L;
    l16 = 0L;
    l17 = 0L;
    l18 = 0L;
    l19 = 0L;
    final int t28 = (Words.get64(b, ((int) l5) - 58896) + Long.MIN_VALUE > Words.get64(b, ((int) l5) - 58832) + Long.MIN_VALUE) ? 1 : 0;
    final int t29 = (l15 + Long.MIN_VALUE > l12 + Long.MIN_VALUE) ? 1 : 0;
    final int t30 = (l15 == l12) ? 1 : 0;
    if ((t30 != 0 ? t28 : t29) == 0) { break L5; }
    Words.put64(b, ((int) l5) - 58744, Words.get64(b, ((int) l5) - 58664));
    Words.put64(b, ((int) l5) - 58752, Words.get64(b, ((int) l5) - 58672));
    Words.put64(b, ((int) l5) - 58768, Words.get64(b, ((int) (l4 = l5 + 224L)) - 58912));
    Words.put64(b, ((int) l5) - 58760, Words.get64(b, ((int) l4) - 58904));
    l20 = 1;
    l4 = l7;
    l11 = l6;
    l13 = l9;
    l14 = l8;
    l16 = l2;
    l17 = l1;
    l18 = l3;
    l19 = l10;
   }
   Words.put64(b, ((int) l0) - 58904, 0L);
   Words.put64(b, ((int) (l0 + 40L)) - 58912, l14);
   Words.put64(b, ((int) (l0 + 32L)) - 58912, l13);
   Words.put64(b, ((int) (l0 + 24L)) - 58912, l11);
   Words.put64(b, ((int) (l0 + 16L)) - 58912, l4);
   Words.put64(b, ((int) l0) - 58912, l20 & 0xffffffffL);
   Words.put64(b, ((int) (l0 + 88L)) - 58912, l19);
   Words.put64(b, ((int) (l0 + 80L)) - 58912, l18);
   Words.put64(b, ((int) (l0 + 72L)) - 58912, l17);
   Words.put64(b, ((int) (l0 + 64L)) - 58912, l16);
   Words.put64(b, ((int) (l0 + 48L)) - 58912, Words.get64(b, ((int) l5) - 58752));
   Words.put64(b, ((int) (l0 + 56L)) - 58912, Words.get64(b, ((int) l5) - 58744));
   Words.put64(b, ((int) (l0 + 96L)) - 58912, Words.get64(b, ((int) l5) - 58768));
   Words.put64(b, ((int) (l0 + 104L)) - 58912, Words.get64(b, ((int) l5) - 58760));
   break L1;
  }
  throw State.trap();
 }
 m.g0 = l5 + 320L;
}
}
