// The proved module for WebAssembly as Java; made by bindings/java/core.py.
package chinesenumber;

final class Core3 {
static void f80(State m, long l0, long l1, long l2, int l3) {
 final byte[] b = m.bytes;
 long l4 = 0;
 long l5 = 0;
 long l6 = 0;
 long l7 = 0;
 long l8 = 0;
 long l9 = 0;
 long l10 = 0;
 long l11 = 0;
 long l12 = 0;
 int l13 = 0;
 int l14 = 0;
 int l15 = 0;
 int l16 = 0;
 m.g0 = l4 = m.g0 - 528L;
 L1: {
  L2: {
   L3: {
    L4: {
     L5: {
      L6: {
       if ((l4 = l4) < 16L) { break L6; }
       Words.put64(b, ((int) l4) - 58665, 0L);
       Words.put64(b, ((int) l4) - 58672, 0L);
       Words.put64(b, ((int) l4) - 58704, 0L);
       Words.put64(b, ((int) l4) - 58696, 0L);
       Words.put64(b, ((int) l4) - 58688, 0L);
       Words.put64(b, ((int) l4) - 58680, 0L);
       Words.put64(b, ((int) l4) - 58752, 0L);
       Words.put64(b, ((int) l4) - 58744, 0L);
       Words.put64(b, ((int) l4) - 58736, 0L);
       Words.put64(b, ((int) l4) - 58728, 0L);
       Words.put64(b, ((int) l4) - 58720, 0L);
       Words.put64(b, ((int) l4) - 58712, 0L);
       Words.put64(b, ((int) l4) - 58816, 0L);
       Words.put64(b, ((int) l4) - 58808, 0L);
       Words.put64(b, ((int) l4) - 58800, 0L);
       Words.put64(b, ((int) l4) - 58792, 0L);
       Words.put64(b, ((int) l4) - 58784, 0L);
       Words.put64(b, ((int) l4) - 58776, 0L);
       Words.put64(b, ((int) l4) - 58768, 0L);
       Words.put64(b, ((int) l4) - 58760, 0L);
       f83(m, l4 + 208L, l1, l2);
       l5 = Words.get64(b, ((int) l4) - 58680);
       l6 = Words.get64(b, ((int) l4) - 58688);
       l7 = Words.get64(b, ((int) l4) - 58696);
       l13 = b[((int) l4) - 58703] & 0xff;
       L7: {
        if ((l14 = b[((int) l4) - 58704] & 0xff) == 1) { break L7; }
        f84(m, l4 + 160L, l6, l5);
        if ((b[((int) l4) - 58752] & 0xff) != 1) { break L7; }
        f85(m, l4 + 96L, l3, l7, l4 + 168L);
        l2 = Words.get64(b, ((int) l4) - 58800);
        L8: {
         L9: {
          if ((b[((int) l4) - 58816] & 0xff) != 0) { break L9; }
          L10: {
           final int t11 = (l2 == 0L) ? 1 : 0;
           final int t12 = ((l6 = Words.get64(b, ((int) l4) - 58792)) > -1L) ? 1 : 0;
           final int t13 = (l6 == -9223372036854775808L) ? 1 : 0;
           if ((t13 != 0 ? t11 : t12) == 0) { break L10; }
           l1 = 0L;
           l8 = 0L - l2;
           l2 = 0L - (l6 + ((l2 != 0L) ? 1L : 0L));
           l6 = Words.get64(b, ((int) l4) - 58776);
           l5 = Words.get64(b, ((int) l4) - 58784);
           l3 = b[((int) l4) - 58768] & 0xff;
           l7 = 0L;
           break L8;
          }
          l8 = 0L;
          l3 = 0;
          l7 = 3L;
          l1 = 1L;
          l2 = 0L;
          l5 = 0L;
          l6 = 0L;
          break L8;
         }
         l6 = 0L;
         l8 = ((l15 = ((l3 = b[((int) l4) - 58808] & 0xff) == 2) ? 1 : 0) != 0) ? 0L : l2;
         l7 = (l15 != 0 ? 3 : l3) & 0xffffffffL;
         l3 = 0;
         l1 = 1L;
         l2 = 0L;
         l5 = 0L;
        }
        Words.put64(b, ((int) l0) - 58912, l1);
        Words.put64(b, ((int) (l0 + 40L)) - 58912, l6);
        Words.put64(b, ((int) (l0 + 32L)) - 58912, l5);
        Words.put64(b, ((int) (l0 + 24L)) - 58912, l2);
        Words.put64(b, ((int) (l0 + 16L)) - 58912, l8);
        Words.put64(b, ((int) (l0 + 49L)) - 58912, 0L);
        b[((int) (l0 + 48L)) - 58912] = (byte) l3;
        Words.put64(b, ((int) (l0 + 8L)) - 58912, l7);
        Words.put64(b, ((int) (l0 + 56L)) - 58912, 0L);
        break L1;
       }
       Words.put64(b, ((int) l4) - 58624, 0L);
       Words.put64(b, ((int) l4) - 58616, 0L);
       Words.put64(b, ((int) l4) - 58608, 0L);
       Words.put64(b, ((int) l4) - 58600, 0L);
       Words.put64(b, ((int) l4) - 58480, 0L);
       Words.put64(b, ((int) l4) - 58472, 0L);
       Words.put64(b, ((int) l4) - 58464, 0L);
       Words.put64(b, ((int) l4) - 58456, 0L);
       Words.put64(b, ((int) l4) - 58448, 0L);
       Words.put64(b, ((int) l4) - 58440, 0L);
       Words.put64(b, ((int) l4) - 58416, 0L);
       Words.put64(b, ((int) l4) - 58408, 0L);
       Words.put64(b, ((int) l4) - 58400, 0L);
       Words.put64(b, ((int) l4) - 58392, 0L);
       Words.put64(b, ((int) l4) - 58656, 0L);
       Words.put64(b, ((int) l4) - 58648, 0L);
       Words.put64(b, ((int) l4) - 58640, 0L);
       Words.put64(b, ((int) l4) - 58632, 0L);
       Words.put64(b, ((int) l4) - 58488, 0L);
       Words.put64(b, ((int) l4) - 58496, 0L);
       Words.put64(b, ((int) l4) - 58504, 0L);
       Words.put64(b, ((int) l4) - 58512, 0L);
       Words.put64(b, ((int) l4) - 58520, 0L);
       Words.put64(b, ((int) l4) - 58528, 0L);
       Words.put64(b, ((int) l4) - 58552, 0L);
       Words.put64(b, ((int) l4) - 58560, 0L);
       Words.put64(b, ((int) l4) - 58568, 0L);
       Words.put64(b, ((int) l4) - 58576, 0L);
       l2 = l6;
       l1 = l5;
       L14: {
        L15: {
         L16: while (true) {
          f86(m, l4 + 336L, l2, l8 = l1);
          if ((b[((int) l4) - 58576] & 0xff) != 1) { break L15; }
          l1 = Words.get64(b, ((int) l4) - 58552);
          l2 = Words.get64(b, ((int) l4) - 58560);
          if (Words.get32(b, ((int) l4) - 58568) != 21448) { continue L16; }
          break L16;
         }
         f86(m, l4 + 288L, l6, l8 = l5 - l8);
         if ((b[((int) l4) - 58624] & 0xff) != 1) { break L15; }
         f87(m, l4 + 432L, l2, l1);
         if ((b[((int) l4) - 58480] & 0xff) != 1) { break L15; }
         l2 = Words.get64(b, ((int) l4) - 58440);
         l1 = Words.get64(b, ((int) l4) - 58448);
         l9 = Words.get64(b, ((int) l4) - 58464);
         l10 = Words.get64(b, ((int) l4) - 58472);
         f88(m, l4 + 496L, l3, 0L, l6, l8);
         f89(m, l4 + 256L, l3, 0L, l10, l9);
         f90(m, l4 + 384L, l3, 0L, l1, l2);
         if ((b[((int) l4) - 58416] & 0xff) != 0) { break L15; }
         if (((b[((int) l4) - 58656] & 0xff) & 255) != 0) { break L15; }
         if (((b[((int) l4) - 58528] & 0xff) & 255) != 0) { break L15; }
         if (Words.get64(b, ((int) l4) - 58496) != 0L) { break L15; }
         final int t17 = ((l8 = Words.get64(b, ((int) l4) - 58640)) + Long.MIN_VALUE <= (l10 = Words.get64(b, ((int) l4) - 58512)) + Long.MIN_VALUE) ? 1 : 0;
         final int t18 = ((l1 = Words.get64(b, ((int) l4) - 58632)) + Long.MIN_VALUE <= (l2 = Words.get64(b, ((int) l4) - 58504)) + Long.MIN_VALUE) ? 1 : 0;
         final int t19 = (l1 == l2) ? 1 : 0;
         if ((t19 != 0 ? t17 : t18) != 0) { break L15; }
         l9 = Words.get64(b, ((int) l4) - 58392);
         Core1.f3(m, l4 + 48L, l8, 0L, l11 = Words.get64(b, ((int) l4) - 58400), 0L);
         Core1.f3(m, l4 + 80L, l1, 0L, l11, 0L);
         Core1.f3(m, l4 + 32L, l8, 0L, l9, 0L);
         Core1.f3(m, l4 + 64L, l1, 0L, l9, 0L);
         if ((((Words.get64(b, ((int) l4) - 58872) + (((l12 = (l9 = (l11 = Words.get64(b, ((int) l4) - 58856)) + Words.get64(b, ((int) l4) - 58832)) + Words.get64(b, ((int) l4) - 58880)) + Long.MIN_VALUE < l9 + Long.MIN_VALUE) ? 1L : 0L)) | (l11 = (l9 = Words.get64(b, ((int) l4) - 58824) + ((l9 + Long.MIN_VALUE < l11 + Long.MIN_VALUE) ? 1L : 0L)) + Words.get64(b, ((int) l4) - 58848))) | (Words.get64(b, ((int) l4) - 58840) + ((l11 + Long.MIN_VALUE < l9 + Long.MIN_VALUE) ? 1L : 0L))) != 0L) { break L15; }
         final int t20 = ((l9 = Words.get64(b, ((int) l4) - 58864)) + Long.MIN_VALUE > (l10 ^ -1L) + Long.MIN_VALUE) ? 1 : 0;
         final int t21 = (l12 + Long.MIN_VALUE > (l11 = l2 ^ -1L) + Long.MIN_VALUE) ? 1 : 0;
         final int t22 = (l12 == l11) ? 1 : 0;
         if ((t22 != 0 ? t20 : t21) != 0) { break L15; }
         Words.put64(b, ((int) l4) - 58473, 0L);
         Words.put64(b, ((int) l4) - 58480, 0L);
         l2 = (l12 + l2) + (((l6 = l9 + l10) + Long.MIN_VALUE < l9 + Long.MIN_VALUE) ? 1L : 0L);
         l15 = 3;
         break L14;
        }
        Words.put64(b, ((int) l4) - 58480, 0L);
        Words.put64(b, ((int) l4) - 58472, 0L);
        Words.put64(b, ((int) l4) - 58464, 0L);
        Words.put64(b, ((int) l4) - 58456, 0L);
        Words.put64(b, ((int) l4) - 58448, 0L);
        Words.put64(b, ((int) l4) - 58440, 0L);
        Words.put64(b, ((int) l4) - 58432, 0L);
        Words.put64(b, ((int) l4) - 58424, 0L);
        Words.put64(b, ((int) l4) - 58528, 0L);
        Words.put64(b, ((int) l4) - 58520, 0L);
        Words.put64(b, ((int) l4) - 58512, 0L);
        Words.put64(b, ((int) l4) - 58504, 0L);
        Words.put64(b, ((int) l4) - 58496, 0L);
        Words.put64(b, ((int) l4) - 58488, 0L);
        Words.put64(b, ((int) l4) - 58576, 0L);
        Words.put64(b, ((int) l4) - 58568, 0L);
        Words.put64(b, ((int) l4) - 58560, 0L);
        Words.put64(b, ((int) l4) - 58552, 0L);
        Words.put64(b, ((int) l4) - 58544, 0L);
        Words.put64(b, ((int) l4) - 58536, 0L);
        Words.put64(b, ((int) l4) - 58584, 0L);
        Words.put64(b, ((int) l4) - 58592, 0L);
        Words.put64(b, ((int) l4) - 58600, 0L);
        Words.put64(b, ((int) l4) - 58608, 0L);
        Words.put64(b, ((int) l4) - 58616, 0L);
        Words.put64(b, ((int) l4) - 58624, 0L);
        f87(m, l4 + 384L, l6, l5);
        L23: {
         if ((b[((int) l4) - 58528] & 0xff) == 1) { break L23; }
         Words.put64(b, ((int) l4) - 58392, 0L);
         Words.put64(b, ((int) l4) - 58400, 0L);
         Words.put64(b, ((int) l4) - 58408, 0L);
         Words.put64(b, ((int) l4) - 58416, 0L);
         f91(m, l4 + 496L, l6, l5);
         L24: {
          L25: {
           L26: {
            L27: {
             if ((b[((int) l4) - 58416] & 0xff) != 1) { break L27; }
             l16 = Words.get32(b, ((int) l4) - 58408);
             f86(m, l4 + 496L, l2 = Words.get64(b, ((int) l4) - 58400), l1 = Words.get64(b, ((int) l4) - 58392));
             if ((b[((int) l4) - 58416] & 0xff) != 1) { break L27; }
             l8 = 100L;
             l15 = 2;
             L28: {
              if (l16 == 37) { break L28; }
              if (l16 == 65285) { break L28; }
              if (l16 != 8240) { break L27; }
              l8 = 1000L;
              l15 = 3;
             }
             f92(m, l4 + 336L, l3, l7, l2, l1);
             l5 = Words.get64(b, ((int) l4) - 58560);
             L29: {
              if ((b[((int) l4) - 58576] & 0xff) != 0) { break L29; }
              l3 = 2;
              L30: {
               if ((l1 = Words.get64(b, ((int) l4) - 58544)) + Long.MIN_VALUE <= -9223372036854775770L) { break L30; }
               l6 = 0L;
               break L26;
              }
              l2 = Words.get64(b, ((int) l4) - 58552);
              l6 = 0L;
              Core1.f3(m, l4 + 16L, Words.get64(b, ((int) ((l1 = l1 << 4L) + 68336L)) - 58912), 0L, l8, 0L);
              Core1.f3(m, l4, Words.get64(b, ((int) (l1 + 68344L)) - 58912), 0L, l8, 0L);
              if ((Words.get64(b, ((int) l4) - 58904) + (((l1 = (l8 = Words.get64(b, ((int) l4) - 58888)) + Words.get64(b, ((int) l4) - 58912)) + Long.MIN_VALUE < l8 + Long.MIN_VALUE) ? 1L : 0L)) != 0L) { break L26; }
              l8 = Words.get64(b, ((int) l4) - 58896) & -4L;
              l6 = l5;
              break L24;
             }
             Words.put64(b, ((int) l4) - 58456, 0L);
             Words.put64(b, ((int) l4) - 58464, l5);
             Words.put64(b, ((int) l4) - 58448, 0L);
             Words.put64(b, ((int) l4) - 58440, 0L);
             Words.put64(b, ((int) l4) - 58432, 0L);
             Words.put64(b, ((int) l4) - 58424, 0L);
             l3 = b[((int) l4) - 58568] & 0xff;
             l6 = l5;
             break L26;
            }
            f92(m, l4 + 288L, l3, l7, l6, l5);
            l6 = Words.get64(b, ((int) l4) - 58608);
            L31: {
             if ((b[((int) l4) - 58624] & 0xff) != 0) { break L31; }
             if ((l2 = Words.get64(b, ((int) l4) - 58592)) + Long.MIN_VALUE <= -9223372036854775770L) { break L25; }
             l3 = 2;
             l6 = 0L;
             break L26;
            }
            Words.put64(b, ((int) l4) - 58456, 0L);
            Words.put64(b, ((int) l4) - 58464, l6);
            Words.put64(b, ((int) l4) - 58448, 0L);
            Words.put64(b, ((int) l4) - 58440, 0L);
            Words.put64(b, ((int) l4) - 58432, 0L);
            Words.put64(b, ((int) l4) - 58424, 0L);
            l3 = b[((int) l4) - 58616] & 0xff;
           }
           Words.put64(b, ((int) l4) - 58473, 0L);
           Words.put64(b, ((int) l4) - 58480, 0L);
           break L4;
          }
          l15 = (l2 != 0L) ? 1 : 0;
          l1 = Words.get64(b, ((int) ((l2 = l2 << 4L) + 68344L)) - 58912);
          l8 = Words.get64(b, ((int) (l2 + 68336L)) - 58912);
          l2 = Words.get64(b, ((int) l4) - 58600);
         }
         Words.put64(b, ((int) l4) - 58473, 0L);
         Words.put64(b, ((int) l4) - 58480, 0L);
         break L14;
        }
        f85(m, l4 + 432L, l3, l7, l4 + 392L);
        l1 = Words.get64(b, ((int) l4) - 58440);
        l8 = Words.get64(b, ((int) l4) - 58448);
        l2 = Words.get64(b, ((int) l4) - 58456);
        l6 = Words.get64(b, ((int) l4) - 58464);
        l15 = b[((int) l4) - 58432] & 0xff;
        l3 = b[((int) l4) - 58472] & 0xff;
        l16 = b[((int) l4) - 58480] & 0xff;
        Words.put64(b, ((int) l4) - 58473, 0L);
        Words.put64(b, ((int) l4) - 58480, 0L);
        if (l16 != 0) { break L4; }
       }
       L32: {
        L33: {
         if (l14 != 1) { break L33; }
         if ((l13 & 255) != 1) { break L33; }
         L34: {
          final int t35 = (l6 == 0L) ? 1 : 0;
          final int t36 = (l2 > -1L) ? 1 : 0;
          final int t37 = (l2 == -9223372036854775808L) ? 1 : 0;
          if ((t37 != 0 ? t35 : t36) != 0) { break L34; }
          l3 = 3;
          break L32;
         }
         l7 = 0L;
         l5 = 0L - l6;
         l2 = 0L - (l2 + ((l6 != 0L) ? 1L : 0L));
         l3 = 0;
         break L2;
        }
        if (l2 > -1L) { break L5; }
        l3 = 2;
       }
       l5 = 0L;
       l15 = 0;
       l7 = 1L;
       l2 = 0L;
       break L3;
      }
      throw State.trap();
     }
     l3 = 0;
     l7 = 0L;
     l5 = l6;
     break L2;
    }
    l2 = 0L;
    l5 = ((l15 = (((l14 == 1) & ((l13 & 255) == 1)) & ((l3 & 255) == 2)) ? 1 : 0) != 0) ? 0L : l6;
    l3 = l15 != 0 ? 3 : l3;
    l15 = 0;
    l7 = 1L;
   }
   l8 = 0L;
   l1 = 0L;
  }
  Words.put64(b, ((int) l4) - 58665, Words.get64(b, ((int) l4) - 58473));
  Words.put64(b, ((int) l4) - 58672, Words.get64(b, ((int) l4) - 58480));
  Words.put64(b, ((int) (l0 + 40L)) - 58912, l1);
  Words.put64(b, ((int) (l0 + 32L)) - 58912, l8);
  Words.put64(b, ((int) (l0 + 24L)) - 58912, l2);
  Words.put64(b, ((int) (l0 + 16L)) - 58912, l5);
  b[((int) (l0 + 48L)) - 58912] = (byte) l15;
  Words.put64(b, ((int) (l0 + 8L)) - 58912, (l3 & 0xffffffffL) & 255L);
  Words.put64(b, ((int) l0) - 58912, l7);
  Words.put64(b, ((int) (l0 + 49L)) - 58912, Words.get64(b, ((int) l4) - 58672));
  Words.put64(b, ((int) (l0 + 56L)) - 58912, Words.get64(b, ((int) l4) - 58665));
 }
 m.g0 = l4 + 528L;
}

static void f81(State m, long l0, long l1, long l2, long l3, long l4) {
 final byte[] b = m.bytes;
 long l5 = 0;
 long l6 = 0;
 long l7 = 0;
 long l8 = 0;
 long l9 = 0;
 long l10 = 0;
 long l11 = 0;
 long l12 = 0;
 long l13 = 0;
 long l14 = 0;
 int l15 = 0;
 int l16 = 0;
 int l17 = 0;
 int l18 = 0;
 m.g0 = l5 = m.g0 - 240L;
 L1: {
  if ((l5 = l5) < 16L) { break L1; }
  l6 = 0L;
  l7 = 83372L;
  L2: {
   if (l4 + Long.MIN_VALUE > -9223372036854775760L) { break L2; }
   l8 = l1;
   l9 = l2;
   L3: {
    L4: while (true) {
     if (l9 == 0L) { break L3; }
     l16 = (l15 = (int) b[((int) l8) - 58912]) & 255;
     l10 = 1L;
     L5: {
      if (l15 > -1) { break L5; }
      l17 = (b[((int) l8) - 58911] & 0xff) & 63;
      L6: {
       if (l15 + Integer.MIN_VALUE > 2147483615) { break L6; }
       l16 = ((l16 << 6) & 1984) | l17;
       l10 = 2L;
       break L5;
      }
      l18 = (b[((int) l8) - 58910] & 0xff) & 63;
      L7: {
       if (l15 + Integer.MIN_VALUE > 2147483631) { break L7; }
       l16 = ((l17 << 6) | ((l16 << 12) & 61440)) | l18;
       l10 = 3L;
       break L5;
      }
      l16 = ((l18 << 6) | ((l17 << 12) | ((l16 << 18) & 1835008))) | ((b[((int) l8) - 58909] & 0xff) & 63);
      l10 = 4L;
     }
     Core2.f61(m, l5 + 168L, l16);
     l9 = l9 - l10;
     l8 = l8 + l10;
     if ((b[((int) l5) - 58744] & 0xff) != 1) { continue L4; }
     if (((b[((int) l5) - 58743] & 0xff) & 255) + Integer.MIN_VALUE <= -2147483647) { continue L4; }
     break L2;
    }
   }
   l6 = 0L;
   Words.put64(b, ((int) l5) - 58680, 0L);
   Words.put64(b, ((int) l5) - 58688, 0L);
   Words.put64(b, ((int) l5) - 58696, 0L);
   Words.put64(b, ((int) l5) - 58704, 0L);
   Words.put64(b, ((int) l5) - 58712, 0L);
   Words.put64(b, ((int) l5) - 58720, 0L);
   Words.put64(b, ((int) l5) - 58728, 0L);
   Words.put64(b, ((int) l5) - 58736, 0L);
   f80(m, l5 + 176L, l1, l2, 1);
   if ((b[((int) l5) - 58736] & 0xff) != 0) { break L2; }
   final int t8 = (Words.get64(b, ((int) l5) - 58720) == 0L) ? 1 : 0;
   final int t9 = ((l8 = Words.get64(b, ((int) l5) - 58712)) < 0L) ? 1 : 0;
   final int t10 = (l8 == 0L) ? 1 : 0;
   if ((t10 != 0 ? t8 : t9) != 0) { break L2; }
   Words.put64(b, ((int) l5) - 58680, 0L);
   Words.put64(b, ((int) l5) - 58688, 0L);
   Words.put64(b, ((int) l5) - 58696, 0L);
   Words.put64(b, ((int) l5) - 58704, 0L);
   Words.put64(b, ((int) l5) - 58712, 0L);
   Words.put64(b, ((int) l5) - 58720, 0L);
   Words.put64(b, ((int) l5) - 58728, 0L);
   Words.put64(b, ((int) l5) - 58736, 0L);
   f80(m, l5 + 176L, l1, l2, 1);
   l1 = Words.get64(b, ((int) l5) - 58696);
   l11 = Words.get64(b, ((int) l5) - 58704);
   l8 = Words.get64(b, ((int) l5) - 58712);
   l10 = Words.get64(b, ((int) l5) - 58720);
   l16 = b[((int) l5) - 58736] & 0xff;
   f105(m, l5 + 152L, l3, l4);
   l9 = Words.get64(b, ((int) l5) - 58752);
   Words.put64(b, ((int) l5) - 58680, 0L);
   Words.put64(b, ((int) l5) - 58688, 0L);
   Words.put64(b, ((int) l5) - 58696, 0L);
   Words.put64(b, ((int) l5) - 58704, 0L);
   Words.put64(b, ((int) l5) - 58712, 0L);
   Words.put64(b, ((int) l5) - 58720, 0L);
   Words.put64(b, ((int) l5) - 58728, 0L);
   Words.put64(b, ((int) l5) - 58736, 0L);
   f80(m, l5 + 176L, l3, l4 - l9, 1);
   L11: {
    if (((l16 | (l15 = b[((int) l5) - 58736] & 0xff)) & 255) == 0) { break L11; }
    l6 = 0L;
    break L2;
   }
   l12 = Words.get64(b, ((int) l5) - 58696);
   l9 = Words.get64(b, ((int) l5) - 58712);
   l2 = Words.get64(b, ((int) l5) - 58720);
   l6 = 0L;
   final long t12 = l5 + 32L;
   final long t13 = Words.get64(b, ((int) l5) - 58704);
   final int t14 = l15 = l15 & 255;
   final long t15 = l13 = t14 != 0 ? 0L : t13;
   final long t16 = 0L - l10;
   final long t17 = l10;
   final int t18 = l17 = (l8 < 0L) ? 1 : 0;
   final long t19 = t18 != 0 ? t16 : t17;
   final int t20 = l16 = l16 & 255;
   Core1.f3(m, t12, t15, 0L, l14 = t20 != 0 ? 0L : t19, 0L);
   Core1.f3(m, l5 + 16L, l12 = l15 != 0 ? 0L : l12, 0L, l14, 0L);
   final long t21 = l5 + 64L;
   final long t22 = l13;
   final long t23 = 0L - (l8 + ((l10 != 0L) ? 1L : 0L));
   final long t24 = l8;
   final int t25 = l17;
   final long t26 = t25 != 0 ? t23 : t24;
   final int t27 = l16;
   Core1.f3(m, t21, t22, 0L, l8 = t27 != 0 ? 0L : t26, 0L);
   Core1.f3(m, l5 + 48L, l12, 0L, l8, 0L);
   final long t28 = l5 + 96L;
   final long t29 = 0L - l2;
   final long t30 = l2;
   final int t31 = l17 = (l9 < 0L) ? 1 : 0;
   final long t32 = t31 != 0 ? t29 : t30;
   final int t33 = l15;
   Core1.f3(m, t28, l8 = t33 != 0 ? 0L : t32, 0L, l10 = l16 != 0 ? 0L : l11, 0L);
   Core1.f3(m, l5 + 80L, l8, 0L, l1 = l16 != 0 ? 0L : l1, 0L);
   final long t34 = l5 + 128L;
   final long t35 = 0L - (l9 + ((l2 != 0L) ? 1L : 0L));
   final long t36 = l9;
   final int t37 = l17;
   final long t38 = t37 != 0 ? t35 : t36;
   final int t39 = l15;
   Core1.f3(m, t34, l8 = t39 != 0 ? 0L : t38, 0L, l10, 0L);
   Core1.f3(m, l5 + 112L, l8, 0L, l1, 0L);
   if (((((Words.get64(b, ((int) l5) - 58840) + (((l9 = (l8 = (l10 = Words.get64(b, ((int) l5) - 58872)) + Words.get64(b, ((int) l5) - 58896)) + Words.get64(b, ((int) l5) - 58848)) + Long.MIN_VALUE < l8 + Long.MIN_VALUE) ? 1L : 0L)) | (l2 = (l10 = Words.get64(b, ((int) l5) - 58888) + ((l8 + Long.MIN_VALUE < l10 + Long.MIN_VALUE) ? 1L : 0L)) + Words.get64(b, ((int) l5) - 58864))) | ((Words.get64(b, ((int) l5) - 58776) + (((l11 = (l8 = (l1 = Words.get64(b, ((int) l5) - 58808)) + Words.get64(b, ((int) l5) - 58832)) + Words.get64(b, ((int) l5) - 58784)) + Long.MIN_VALUE < l8 + Long.MIN_VALUE) ? 1L : 0L)) | (l1 = (l8 = Words.get64(b, ((int) l5) - 58824) + ((l8 + Long.MIN_VALUE < l1 + Long.MIN_VALUE) ? 1L : 0L)) + Words.get64(b, ((int) l5) - 58800)))) | ((Words.get64(b, ((int) l5) - 58856) + ((l2 + Long.MIN_VALUE < l10 + Long.MIN_VALUE) ? 1L : 0L)) | (Words.get64(b, ((int) l5) - 58792) + ((l1 + Long.MIN_VALUE < l8 + Long.MIN_VALUE) ? 1L : 0L)))) != 0L) { break L2; }
   final int t40 = (Words.get64(b, ((int) l5) - 58816) + Long.MIN_VALUE <= Words.get64(b, ((int) l5) - 58880) + Long.MIN_VALUE) ? 1 : 0;
   final int t41 = (l11 + Long.MIN_VALUE <= l9 + Long.MIN_VALUE) ? 1 : 0;
   final int t42 = (l11 == l9) ? 1 : 0;
   if ((t42 != 0 ? t40 : t41) != 0) { break L2; }
   f105(m, l5, l3, l4);
   l6 = Words.get64(b, ((int) l5) - 58904);
   l7 = Words.get64(b, ((int) l5) - 58912);
  }
  Words.put64(b, ((int) l0) - 58904, l6);
  Words.put64(b, ((int) l0) - 58912, l7);
  m.g0 = l5 + 240L;
  return;
 }
 throw State.trap();
}

static void f82(State m, long l0, long l1, long l2, long l3, long l4) {
 final byte[] b = m.bytes;
 long l5 = 0;
 long l6 = 0;
 long l7 = 0;
 int l8 = 0;
 int l9 = 0;
 m.g0 = l5 = m.g0 - 256L;
 L1: {
  L2: {
   if ((l5 = l5) < 16L) { break L2; }
   L3: {
    L4: {
     if (l2 + Long.MIN_VALUE > -9223372036854775760L) { break L4; }
     if (l4 + Long.MIN_VALUE < -9223372036854775759L) { break L3; }
    }
    Words.put64(b, ((int) l0) - 58856, 0L);
    Words.put64(b, ((int) l0) - 58864, 0L);
    Words.put64(b, ((int) l0) - 58872, 0L);
    Words.put64(b, ((int) l0) - 58880, 0L);
    Words.put64(b, ((int) l0) - 58888, 0L);
    Words.put64(b, ((int) l0) - 58896, 0L);
    Words.put64(b, ((int) l0) - 58904, 0L);
    Words.put64(b, ((int) l0) - 58912, 0L);
    break L1;
   }
   m.fill((int) (l5 + 8L), 0, (int) 96L);
   l6 = 0L;
   Words.put64(b, ((int) l5) - 58752, 0L);
   Words.put64(b, ((int) l5) - 58760, 96L);
   Words.put64(b, ((int) l5) - 58768, l5 + 8L);
   Core2.f53(m, l5 + 144L, l1, l2);
   Core2.f53(m, l5 + 144L, l3, l4);
   l4 = Words.get64(b, ((int) l5) - 58768);
   l2 = Words.get64(b, ((int) l5) - 58752);
   l3 = Words.get64(b, ((int) l5) - 58760);
   Words.put64(b, ((int) l5) - 58712, 0L);
   Words.put64(b, ((int) l5) - 58720, 0L);
   Words.put64(b, ((int) l5) - 58728, 0L);
   Words.put64(b, ((int) l5) - 58736, 0L);
   Words.put64(b, ((int) l5) - 58744, 0L);
   Words.put64(b, ((int) l5) - 58752, 0L);
   Words.put64(b, ((int) l5) - 58760, 0L);
   Words.put64(b, ((int) l5) - 58768, 0L);
   l8 = 1;
   f80(m, l5 + 144L, ((l9 = (l3 + Long.MIN_VALUE < l2 + Long.MIN_VALUE) ? 1 : 0) != 0) ? 83372L : l4, l9 != 0 ? 0L : l2, 1);
   L5: {
    L6: {
     if ((b[((int) l5) - 58768] & 0xff) != 0) { break L6; }
     Words.put64(b, ((int) l5) - 58696, Words.get64(b, ((int) l5) - 58744));
     Words.put64(b, ((int) l5) - 58688, Words.get64(b, ((int) l5) - 58736));
     Words.put64(b, ((int) l5) - 58680, Words.get64(b, ((int) l5) - 58728));
     Words.put64(b, ((int) l5) - 58672, Words.get64(b, ((int) l5) - 58720));
     Words.put64(b, ((int) l5) - 58664, Words.get64(b, ((int) l5) - 58712));
     l6 = Words.get64(b, ((int) l5) - 58752);
     break L5;
    }
    Words.put64(b, ((int) l5) - 58664, 0L);
    Words.put64(b, ((int) l5) - 58672, 0L);
    Words.put64(b, ((int) l5) - 58680, 0L);
    Words.put64(b, ((int) l5) - 58688, 0L);
    Words.put64(b, ((int) l5) - 58696, 0L);
    l8 = 0;
   }
   Words.put64(b, ((int) l5) - 58776, l2 = Words.get64(b, ((int) l5) - 58664));
   Words.put64(b, ((int) l5) - 58784, l4 = Words.get64(b, ((int) l5) - 58672));
   Words.put64(b, ((int) l5) - 58792, l3 = Words.get64(b, ((int) l5) - 58680));
   Words.put64(b, ((int) l5) - 58800, l1 = Words.get64(b, ((int) l5) - 58688));
   Words.put64(b, ((int) l5) - 58808, l7 = Words.get64(b, ((int) l5) - 58696));
   Words.put64(b, ((int) l0) - 58904, 0L);
   Words.put64(b, ((int) l0) - 58912, l8 & 0xffffffffL);
   Words.put64(b, ((int) (l0 + 16L)) - 58912, l6);
   Words.put64(b, ((int) (l0 + 24L)) - 58912, l7);
   Words.put64(b, ((int) (l0 + 32L)) - 58912, l1);
   Words.put64(b, ((int) (l0 + 40L)) - 58912, l3);
   Words.put64(b, ((int) (l0 + 48L)) - 58912, l4);
   Words.put64(b, ((int) (l0 + 56L)) - 58912, l2);
   break L1;
  }
  throw State.trap();
 }
 m.g0 = l5 + 256L;
}

static void f83(State m, long l0, long l1, long l2) {
 final byte[] b = m.bytes;
 long l3 = 0;
 long l4 = 0;
 long l5 = 0;
 long l6 = 0;
 long l7 = 0;
 long l8 = 0;
 int l9 = 0;
 int l10 = 0;
 int l11 = 0;
 m.g0 = l3 = m.g0 - 112L;
 L1: {
  L2: {
   L3: {
    if ((l4 = l3) < 16L) { break L3; }
    Words.put64(b, ((int) l4) - 58840, 0L);
    Words.put64(b, ((int) l4) - 58848, 0L);
    Words.put64(b, ((int) l4) - 58856, 0L);
    Words.put64(b, ((int) l4) - 58864, 0L);
    Words.put64(b, ((int) l4) - 58808, 0L);
    Words.put64(b, ((int) l4) - 58816, 0L);
    Words.put64(b, ((int) l4) - 58824, 0L);
    Words.put64(b, ((int) l4) - 58832, 0L);
    f86(m, l4 + 80L, l1, l2);
    L4: {
     L5: {
      if ((b[((int) l4) - 58832] & 0xff) != 1) { break L5; }
      l9 = Words.get32(b, ((int) l4) - 58824);
      f86(m, l4 + 80L, Words.get64(b, ((int) l4) - 58816), Words.get64(b, ((int) l4) - 58808));
      if ((b[((int) l4) - 58832] & 0xff) != 1) { break L5; }
      l10 = Words.get32(b, ((int) l4) - 58824);
      f86(m, l4 + 80L, l3 = Words.get64(b, ((int) l4) - 58816), l5 = Words.get64(b, ((int) l4) - 58808));
      if ((b[((int) l4) - 58832] & 0xff) != 1) { break L5; }
      if (l9 != 38646) { break L5; }
      if (l10 != 19979) { break L5; }
      Core2.f63(m, l4 + 40L, l10 = Words.get32(b, ((int) l4) - 58824));
      l9 = 1;
      if ((b[((int) l4) - 58872] & 0xff) == 1) { break L4; }
      Core1.f24(m, l4 + 32L, l10);
      if ((b[((int) l4) - 58880] & 0xff) == 1) { break L4; }
      Core2.f61(m, l4 + 24L, l10);
      if ((b[((int) l4) - 58888] & 0xff) != 1) { break L5; }
      if (((b[((int) l4) - 58887] & 0xff) & 255) == 1) { break L4; }
     }
     f86(m, l4 + 48L, l1, l2);
     l9 = 1;
     if ((b[((int) l4) - 58864] & 0xff) != 1) { break L2; }
     l10 = 0;
     l5 = Words.get64(b, ((int) l4) - 58840);
     l3 = Words.get64(b, ((int) l4) - 58848);
     L6: {
      L7: {
       if ((l11 = Words.get32(b, ((int) l4) - 58856)) > 35999) { break L7; }
       L8: {
        switch (l11 + -43) {
        case 0: break L1;
        case 1: break L2;
        case 2: break L6;
        default: break L8;
        }
       }
       if (l11 == 8722) { break L6; }
       if (l11 == 27491) { break L1; }
       break L2;
      }
      L9: {
       switch (l11 + -65291) {
       case 0: break L1;
       case 1: break L2;
       case 2: break L6;
       default: break L9;
       }
      }
      if (l11 == 36127) { break L6; }
      if (l11 != 36000) { break L2; }
     }
     l9 = 1;
    }
    l10 = 1;
    break L1;
   }
   throw State.trap();
  }
  l9 = 0;
  l10 = 0;
  l3 = l1;
  l5 = l2;
 }
 Words.put64(b, ((int) l4) - 58832, 0L);
 Words.put64(b, ((int) l4) - 58824, 0L);
 Words.put64(b, ((int) l4) - 58816, 0L);
 Words.put64(b, ((int) l4) - 58808, 0L);
 Words.put64(b, ((int) l4) - 58864, 0L);
 Words.put64(b, ((int) l4) - 58856, 0L);
 Words.put64(b, ((int) l4) - 58848, 0L);
 Words.put64(b, ((int) l4) - 58840, 0L);
 f86(m, l4 + 80L, l3, l5);
 L10: {
  L11: {
   if ((b[((int) l4) - 58832] & 0xff) != 1) { break L11; }
   l11 = Words.get32(b, ((int) l4) - 58824);
   f86(m, l4 + 48L, l6 = Words.get64(b, ((int) l4) - 58816), l7 = Words.get64(b, ((int) l4) - 58808));
   if ((b[((int) l4) - 58864] & 0xff) != 1) { break L11; }
   L12: {
    if (l11 == 65509) { break L12; }
    if (l11 != 165) { break L11; }
   }
   Core1.f24(m, l4 + 16L, Words.get32(b, ((int) l4) - 58856));
   if ((b[((int) l4) - 58896] & 0xff) == 1) { break L10; }
  }
  l7 = l5;
  l6 = l3;
 }
 l5 = 0L;
 l3 = 0L;
 L13: {
  if ((l2 = l2 - l7) + Long.MIN_VALUE < -9223372036854775776L) { break L13; }
  Core1.f25(m, l4, l1, l2, l2);
  l5 = l2 - Words.get64(b, ((int) l4) - 58904);
  l3 = Words.get64(b, ((int) l4) - 58912);
 }
 L14: {
  if ((l2 - l3) + Long.MIN_VALUE < -9223372036854775800L) { break L14; }
  L15: while (true) {
   L16: {
    L17: {
     if (((l8 = Words.get64(b, ((int) (l1 + l3)) - 58912)) & 67553998437089520L) != 63050398541283552L) { break L17; }
     l5 = l5 + 3L;
     l3 = l3 + 9L;
     break L16;
    }
    if ((l8 & -9187201950435737472L) != 0L) { break L14; }
    l5 = l5 + 8L;
    l3 = l3 + 8L;
   }
   if ((l2 - l3) + Long.MIN_VALUE > -9223372036854775801L) { continue L15; }
   break L15;
  }
 }
 L18: {
  if (l3 + Long.MIN_VALUE >= l2 + Long.MIN_VALUE) { break L18; }
  L19: while (true) {
   l5 = l5 + 1L;
   if ((l3 = Words.get64(b, ((int) (((((b[((int) (l1 + l3)) - 58912] & 0xff) >>> 1) & 0xffffffffL) & 120L) + 66680L)) - 58912) + l3) + Long.MIN_VALUE < l2 + Long.MIN_VALUE) { continue L19; }
   break L19;
  }
 }
 b[((int) l0) - 58912] = (byte) l9;
 Words.put64(b, ((int) (l0 + 24L)) - 58912, l7);
 Words.put64(b, ((int) (l0 + 16L)) - 58912, l6);
 Words.put64(b, ((int) (l0 + 8L)) - 58912, l5);
 b[((int) (l0 + 1L)) - 58912] = (byte) l10;
 m.g0 = l4 + 112L;
}

static void f84(State m, long l0, long l1, long l2) {
 final byte[] b = m.bytes;
 long l3 = 0;
 long l4 = 0;
 long l5 = 0;
 long l6 = 0;
 long l7 = 0;
 long l8 = 0;
 long l9 = 0;
 int l10 = 0;
 m.g0 = l3 = m.g0 - 112L;
 L1: {
  L2: {
   L3: {
    L4: {
     if ((l3 = l3) < 16L) { break L4; }
     Words.put64(b, ((int) l3) - 58808, 0L);
     Words.put64(b, ((int) l3) - 58816, 0L);
     Words.put64(b, ((int) l3) - 58824, 0L);
     Words.put64(b, ((int) l3) - 58832, 0L);
     Words.put64(b, ((int) l3) - 58840, 0L);
     Words.put64(b, ((int) l3) - 58848, 0L);
     Words.put64(b, ((int) l3) - 58880, 0L);
     Words.put64(b, ((int) l3) - 58872, 0L);
     Words.put64(b, ((int) l3) - 58864, 0L);
     Words.put64(b, ((int) l3) - 58856, 0L);
     Words.put64(b, ((int) l3) - 58896, 0L);
     Words.put64(b, ((int) l3) - 58888, 0L);
     f87(m, l3 + 64L, l1, l2);
     L5: {
      L6: {
       L7: {
        if ((b[((int) l3) - 58848] & 0xff) != 1) { break L7; }
        f86(m, l3 + 32L, Words.get64(b, ((int) l3) - 58816), Words.get64(b, ((int) l3) - 58808));
        if ((b[((int) l3) - 58880] & 0xff) != 1) { break L6; }
        l10 = Words.get32(b, ((int) l3) - 58872);
        f86(m, l3 + 32L, l4 = Words.get64(b, ((int) l3) - 58864), l5 = Words.get64(b, ((int) l3) - 58856));
        if ((b[((int) l3) - 58880] & 0xff) == 1) { break L5; }
        Words.put64(b, ((int) l0) - 58872, 0L);
        Words.put64(b, ((int) l0) - 58880, 0L);
        Words.put64(b, ((int) l0) - 58888, 0L);
        Words.put64(b, ((int) l0) - 58896, 0L);
        Words.put64(b, ((int) l0) - 58904, 0L);
        Words.put64(b, ((int) l0) - 58912, 0L);
        break L1;
       }
       Words.put64(b, ((int) l0) - 58872, 0L);
       Words.put64(b, ((int) l0) - 58880, 0L);
       Words.put64(b, ((int) l0) - 58888, 0L);
       Words.put64(b, ((int) l0) - 58896, 0L);
       Words.put64(b, ((int) l0) - 58904, 0L);
       Words.put64(b, ((int) l0) - 58912, 0L);
       break L1;
      }
      Words.put64(b, ((int) l0) - 58872, 0L);
      Words.put64(b, ((int) l0) - 58880, 0L);
      Words.put64(b, ((int) l0) - 58888, 0L);
      Words.put64(b, ((int) l0) - 58896, 0L);
      Words.put64(b, ((int) l0) - 58904, 0L);
      Words.put64(b, ((int) l0) - 58912, 0L);
      break L1;
     }
     l6 = 0L;
     L8: {
      L9: {
       if (l10 > 35999) { break L9; }
       if (l10 == 45) { break L8; }
       l7 = 0L;
       l8 = 0L;
       l9 = 0L;
       if (l10 == 8722) { break L8; }
       break L2;
      }
      if (l10 == 36000) { break L8; }
      if (l10 == 36127) { break L8; }
      l7 = 0L;
      l8 = 0L;
      l9 = 0L;
      if (l10 != 65293) { break L2; }
     }
     l9 = 0L;
     l6 = 0L;
     L10: {
      if ((l2 = l2 - l5) + Long.MIN_VALUE < -9223372036854775776L) { break L10; }
      Core1.f25(m, l3, l1, l2, l2);
      l9 = l2 - Words.get64(b, ((int) l3) - 58904);
      l6 = Words.get64(b, ((int) l3) - 58912);
     }
     if ((l2 - l6) + Long.MIN_VALUE < -9223372036854775800L) { break L3; }
     L11: while (true) {
      L12: {
       L13: {
        if (((l7 = Words.get64(b, ((int) (l1 + l6)) - 58912)) & 67553998437089520L) != 63050398541283552L) { break L13; }
        l9 = l9 + 3L;
        l6 = l6 + 9L;
        break L12;
       }
       if ((l7 & -9187201950435737472L) != 0L) { break L3; }
       l9 = l9 + 8L;
       l6 = l6 + 8L;
      }
      if ((l2 - l6) + Long.MIN_VALUE <= -9223372036854775801L) { break L3; }
      continue L11;
     }
    }
    throw State.trap();
   }
   l7 = l3 + 72L;
   L14: {
    if (l6 + Long.MIN_VALUE >= l2 + Long.MIN_VALUE) { break L14; }
    L15: while (true) {
     l9 = l9 + 1L;
     if ((l6 = Words.get64(b, ((int) (((((b[((int) (l1 + l6)) - 58912] & 0xff) >>> 1) & 0xffffffffL) & 120L) + 66680L)) - 58912) + l6) + Long.MIN_VALUE < l2 + Long.MIN_VALUE) { continue L15; }
     break L15;
    }
   }
   Words.put64(b, ((int) l3) - 58888, Words.get64(b, ((int) l7) - 58904));
   Words.put64(b, ((int) l3) - 58896, Words.get64(b, ((int) l7) - 58912));
   l8 = 1L;
   l6 = l4;
   l7 = l5;
  }
  Words.put64(b, ((int) l0) - 58912, l8);
  Words.put64(b, ((int) (l0 + 8L)) - 58912, Words.get64(b, ((int) l3) - 58896));
  Words.put64(b, ((int) (l0 + 16L)) - 58912, Words.get64(b, ((int) l3) - 58888));
  Words.put64(b, ((int) (l0 + 40L)) - 58912, l7);
  Words.put64(b, ((int) (l0 + 32L)) - 58912, l6);
  Words.put64(b, ((int) (l0 + 24L)) - 58912, l9);
 }
 m.g0 = l3 + 112L;
}

static void f85(State m, long l0, int l1, long l2, long l3) {
 final byte[] b = m.bytes;
 long l4 = 0;
 long l5 = 0;
 long l6 = 0;
 long l7 = 0;
 long l8 = 0;
 long l9 = 0;
 long l10 = 0;
 long l11 = 0;
 long l12 = 0;
 m.g0 = l4 = m.g0 - 144L;
 L1: {
  L2: {
   if ((l4 = l4) < 16L) { break L2; }
   l5 = Words.get64(b, ((int) l3) - 58880);
   l6 = Words.get64(b, ((int) l3) - 58888);
   l7 = Words.get64(b, ((int) l3) - 58896);
   Words.put64(b, ((int) l4) - 58800, 0L);
   Words.put64(b, ((int) l4) - 58792, 0L);
   Words.put64(b, ((int) l4) - 58784, 0L);
   Words.put64(b, ((int) l4) - 58776, 0L);
   Words.put64(b, ((int) l4) - 58848, 0L);
   Words.put64(b, ((int) l4) - 58840, 0L);
   Words.put64(b, ((int) l4) - 58832, 0L);
   Words.put64(b, ((int) l4) - 58824, 0L);
   Words.put64(b, ((int) l4) - 58816, 0L);
   Words.put64(b, ((int) l4) - 58808, 0L);
   f89(m, l4 + 112L, l1, l2, Words.get64(b, ((int) l3) - 58912), Words.get64(b, ((int) l3) - 58904));
   l3 = Words.get64(b, ((int) l4) - 58784);
   L3: {
    L4: {
     L5: {
      L6: {
       L7: {
        L8: {
         if ((b[((int) l4) - 58800] & 0xff) != 0) { break L8; }
         l8 = Words.get64(b, ((int) l4) - 58776);
         f90(m, l4 + 64L, l1, l7 + l2, l6, l5);
         l2 = Words.get64(b, ((int) l4) - 58832);
         if ((b[((int) l4) - 58848] & 0xff) != 0) { break L3; }
         l1 = 0;
         l7 = 2L;
         l9 = 1L;
         if ((l6 = Words.get64(b, ((int) l4) - 58816)) + Long.MIN_VALUE <= -9223372036854775770L) { break L7; }
         l10 = 0L;
         break L6;
        }
        Words.put64(b, ((int) l0) - 58912, 1L);
        Words.put64(b, ((int) (l0 + 24L)) - 58912, 0L);
        Words.put64(b, ((int) (l0 + 16L)) - 58912, l3);
        Words.put64(b, ((int) (l0 + 32L)) - 58912, 0L);
        Words.put64(b, ((int) (l0 + 8L)) - 58912, b[((int) l4) - 58792] & 0xffL);
        Words.put64(b, ((int) (l0 + 40L)) - 58912, 0L);
        Words.put64(b, ((int) (l0 + 48L)) - 58912, 0L);
        Words.put64(b, ((int) (l0 + 56L)) - 58912, 0L);
        break L1;
       }
       l5 = Words.get64(b, ((int) l4) - 58824);
       l10 = 0L;
       Core1.f3(m, l4 + 16L, l11 = Words.get64(b, ((int) ((l6 = l6 << 4L) + 68336L)) - 58912), 0L, l3, 0L);
       Core1.f3(m, l4, l6 = Words.get64(b, ((int) (l6 + 68344L)) - 58912), 0L, l3, 0L);
       Core1.f3(m, l4 + 48L, l11, 0L, l8, 0L);
       Core1.f3(m, l4 + 32L, l6, 0L, l8, 0L);
       if ((((Words.get64(b, ((int) l4) - 58856) + (((l6 = (l11 = (l12 = Words.get64(b, ((int) l4) - 58888)) + Words.get64(b, ((int) l4) - 58912)) + Words.get64(b, ((int) l4) - 58864)) + Long.MIN_VALUE < l11 + Long.MIN_VALUE) ? 1L : 0L)) | (l12 = (l11 = Words.get64(b, ((int) l4) - 58904) + ((l11 + Long.MIN_VALUE < l12 + Long.MIN_VALUE) ? 1L : 0L)) + Words.get64(b, ((int) l4) - 58880))) | (Words.get64(b, ((int) l4) - 58872) + ((l12 + Long.MIN_VALUE < l11 + Long.MIN_VALUE) ? 1L : 0L))) == 0L) { break L5; }
      }
      l5 = 0L;
      l3 = 0L;
      l6 = 0L;
      break L4;
     }
     l1 = (((l3 ^ 100L) | l8) == 0L) ? 2 : 3;
     l3 = Words.get64(b, ((int) l4) - 58896);
     l9 = 0L;
     l7 = 0L;
     l10 = l2;
    }
    Words.put64(b, ((int) l0) - 58912, l9);
    Words.put64(b, ((int) (l0 + 40L)) - 58912, l6);
    Words.put64(b, ((int) (l0 + 32L)) - 58912, l3);
    Words.put64(b, ((int) (l0 + 24L)) - 58912, l5);
    Words.put64(b, ((int) (l0 + 16L)) - 58912, l10);
    Words.put64(b, ((int) (l0 + 49L)) - 58912, 0L);
    b[((int) (l0 + 48L)) - 58912] = (byte) l1;
    Words.put64(b, ((int) (l0 + 8L)) - 58912, l7);
    Words.put64(b, ((int) (l0 + 56L)) - 58912, 0L);
    break L1;
   }
   Words.put64(b, ((int) l0) - 58912, 1L);
   Words.put64(b, ((int) (l0 + 24L)) - 58912, 0L);
   Words.put64(b, ((int) (l0 + 16L)) - 58912, l2);
   Words.put64(b, ((int) (l0 + 32L)) - 58912, 0L);
   Words.put64(b, ((int) (l0 + 8L)) - 58912, b[((int) l4) - 58840] & 0xffL);
   Words.put64(b, ((int) (l0 + 40L)) - 58912, 0L);
   Words.put64(b, ((int) (l0 + 48L)) - 58912, 0L);
   Words.put64(b, ((int) (l0 + 56L)) - 58912, 0L);
   break L1;
  }
  throw State.trap();
 }
 m.g0 = l4 + 144L;
}

static void f86(State m, long l0, long l1, long l2) {
 final byte[] b = m.bytes;
 int l3 = 0;
 int l4 = 0;
 int l5 = 0;
 int l6 = 0;
 long l7 = 0;
 long l8 = 0;
 L1: {
  L2: {
   L3: {
    L4: {
     L5: {
      L6: {
       if (m.g0 < 16L) { break L6; }
       L7: {
        if (l2 == 0L) { break L7; }
        L8: while (true) {
         L9: {
          L10: {
           if ((l3 = b[((int) l1) - 58912] & 0xff) + Integer.MIN_VALUE > -2147483616) { break L10; }
           if (((1L << (l3 & 0xffffffffL)) & 4294983168L) == 0L) { break L10; }
           l7 = 1L;
           break L9;
          }
          L11: {
           L12: {
            L13: {
             if (l3 == 194) { break L13; }
             if (l2 + Long.MIN_VALUE < -9223372036854775805L) { break L12; }
             if (((l3 + 28) & 255) + Integer.MIN_VALUE < -2147483395) { break L12; }
             l4 = b[((int) (l1 + 1L)) - 58912] & 0xff;
             l6 = (int) (byte) (l5 = b[((int) (l1 + 2L)) - 58912] & 0xff);
             if (l3 != 226) { break L11; }
             if ((l4 & 255) != 128) { break L11; }
             l7 = 3L;
             if (l6 < -117) { break L9; }
             if ((l3 = l5 + -168) + Integer.MIN_VALUE > -2147483641) { break L5; }
             if (((1 << l3) & 131) == 0) { break L5; }
             break L9;
            }
            l7 = 1L;
            l3 = b[((int) l1) - 58911] & 0xff;
            L14: {
             if (l2 != 1L) { break L14; }
             l6 = l3 & 63;
             l3 = 194;
             break L3;
            }
            l7 = 2L;
            if (l3 == 133) { break L9; }
            if (l3 == 160) { break L9; }
           }
           if (l2 + Long.MIN_VALUE >= -9223372036854775805L) { break L5; }
           l4 = b[((int) l1) - 58912] & 0xff;
           break L4;
          }
          L15: {
           L16: {
            L17: {
             L18: {
              switch (l3 + -225) {
              case 1: break L17;
              case 2: break L16;
              default: break L18;
              }
             }
             if ((l4 & 255) != 154) { break L5; }
             if (l6 != -128) { break L5; }
             break L15;
            }
            if ((l4 & 255) != 129) { break L5; }
            if (l6 == -97) { break L15; }
            break L5;
           }
           if ((l4 & 255) != 128) { break L5; }
           if (l6 != -128) { break L5; }
          }
          l7 = 3L;
         }
         l1 = l1 + l7;
         if (!((l2 = l2 - l7) == 0L)) { continue L8; }
         break L8;
        }
       }
       Words.put64(b, ((int) l0) - 58888, 0L);
       Words.put64(b, ((int) l0) - 58896, 0L);
       Words.put64(b, ((int) l0) - 58904, 0L);
       Words.put64(b, ((int) l0) - 58912, 0L);
       return;
      }
      throw State.trap();
     }
     if (((l4 = b[((int) l1) - 58912] & 0xff) & 240) != 224) { break L4; }
     l3 = (((b[((int) l1) - 58910] & 0xff) + ((b[((int) l1) - 58911] & 0xff) << 6)) + (l4 << 12)) + -925824;
     l7 = l2 + -3L;
     l1 = l1 + 3L;
     break L1;
    }
    l3 = l4 & 255;
    l8 = 1L;
    L19: {
     if (((int) (byte) l4) > -1) { break L19; }
     l6 = (b[((int) l1) - 58911] & 0xff) & 63;
     L20: {
      if ((l4 & 255) + Integer.MIN_VALUE > -2147483425) { break L20; }
      l7 = l2;
      break L3;
     }
     l5 = (b[((int) l1) - 58910] & 0xff) & 63;
     L21: {
      if ((l4 & 255) + Integer.MIN_VALUE > -2147483409) { break L21; }
      l3 = ((l6 << 6) | ((l3 << 12) & 61440)) | l5;
      l8 = 3L;
      break L19;
     }
     l3 = ((l5 << 6) | ((l6 << 12) | ((l3 << 18) & 1835008))) | ((b[((int) l1) - 58909] & 0xff) & 63);
     l8 = 4L;
    }
    l7 = l2;
    break L2;
   }
   l3 = ((l3 << 6) & 1984) | l6;
   l8 = 2L;
  }
  l7 = l7 - l8;
  l1 = l1 + l8;
 }
 Words.put64(b, ((int) l0) - 58912, 1L);
 Words.put64(b, ((int) (l0 + 24L)) - 58912, l7);
 Words.put64(b, ((int) (l0 + 16L)) - 58912, l1);
 Words.put32(b, ((int) (l0 + 12L)) - 58912, 0);
 Words.put32(b, ((int) (l0 + 8L)) - 58912, l3);
}

static void f87(State m, long l0, long l1, long l2) {
 final byte[] b = m.bytes;
 long l3 = 0;
 long l4 = 0;
 long l5 = 0;
 long l6 = 0;
 long l7 = 0;
 long l8 = 0;
 long l9 = 0;
 long l10 = 0;
 int l11 = 0;
 m.g0 = l3 = m.g0 - 112L;
 L1: {
  L2: {
   L3: {
    if ((l3 = l3) < 16L) { break L3; }
    Words.put64(b, ((int) l3) - 58872, 0L);
    Words.put64(b, ((int) l3) - 58880, 0L);
    Words.put64(b, ((int) l3) - 58888, 0L);
    Words.put64(b, ((int) l3) - 58896, 0L);
    Words.put64(b, ((int) l3) - 58840, 0L);
    Words.put64(b, ((int) l3) - 58848, 0L);
    Words.put64(b, ((int) l3) - 58856, 0L);
    Words.put64(b, ((int) l3) - 58864, 0L);
    f86(m, l3 + 48L, l1, l2);
    l4 = l2;
    L4: {
     L5: {
      if ((b[((int) l3) - 58864] & 0xff) != 1) { break L5; }
      L6: while (true) {
       l5 = Words.get64(b, ((int) l3) - 58840);
       l6 = Words.get64(b, ((int) l3) - 58848);
       l11 = Words.get32(b, ((int) l3) - 58856);
       Words.put64(b, ((int) l3) - 58808, 0L);
       Words.put64(b, ((int) l3) - 58816, 0L);
       Words.put64(b, ((int) l3) - 58824, 0L);
       Words.put64(b, ((int) l3) - 58832, 0L);
       L7: {
        if (l11 != 20998) { break L7; }
        f86(m, l3 + 80L, l6, l5);
        if ((b[((int) l3) - 58832] & 0xff) != 1) { break L7; }
        if (Words.get32(b, ((int) l3) - 58824) == 20043) { break L4; }
       }
       f86(m, l3 + 48L, l6, l5);
       l4 = l5;
       if ((b[((int) l3) - 58864] & 0xff) == 1) { continue L6; }
       break L6;
      }
     }
     Words.put64(b, ((int) l0) - 58872, 0L);
     Words.put64(b, ((int) l0) - 58880, 0L);
     Words.put64(b, ((int) l0) - 58888, 0L);
     Words.put64(b, ((int) l0) - 58896, 0L);
     Words.put64(b, ((int) l0) - 58904, 0L);
     Words.put64(b, ((int) l0) - 58912, 0L);
     break L1;
    }
    l7 = Words.get64(b, ((int) l3) - 58816);
    l6 = 0L;
    l5 = 0L;
    L8: {
     if ((l9 = l2 - (l8 = Words.get64(b, ((int) l3) - 58808))) + Long.MIN_VALUE < -9223372036854775776L) { break L8; }
     Core1.f25(m, l3, l1, l9, l9);
     l6 = l9 - Words.get64(b, ((int) l3) - 58904);
     l5 = Words.get64(b, ((int) l3) - 58912);
    }
    if ((l9 - l5) + Long.MIN_VALUE < -9223372036854775800L) { break L2; }
    L9: while (true) {
     L10: {
      L11: {
       if (((l10 = Words.get64(b, ((int) (l1 + l5)) - 58912)) & 67553998437089520L) != 63050398541283552L) { break L11; }
       l6 = l6 + 3L;
       l5 = l5 + 9L;
       break L10;
      }
      if ((l10 & -9187201950435737472L) != 0L) { break L2; }
      l6 = l6 + 8L;
      l5 = l5 + 8L;
     }
     if ((l9 - l5) + Long.MIN_VALUE <= -9223372036854775801L) { break L2; }
     continue L9;
    }
   }
   throw State.trap();
  }
  l4 = l2 - l4;
  L12: {
   if (l5 + Long.MIN_VALUE >= l9 + Long.MIN_VALUE) { break L12; }
   L13: while (true) {
    l6 = l6 + 1L;
    if ((l5 = Words.get64(b, ((int) (((((b[((int) (l1 + l5)) - 58912] & 0xff) >>> 1) & 0xffffffffL) & 120L) + 66680L)) - 58912) + l5) + Long.MIN_VALUE < l9 + Long.MIN_VALUE) { continue L13; }
    break L13;
   }
  }
  f86(m, l3 + 16L, l1, l4);
  L14: {
   L15: {
    if ((b[((int) l3) - 58896] & 0xff) != 1) { break L15; }
    f86(m, l3 + 16L, l7, l8);
    if ((b[((int) l3) - 58896] & 0xff) != 1) { break L14; }
    Words.put64(b, ((int) l0) - 58912, 1L);
    Words.put64(b, ((int) (l0 + 40L)) - 58912, l8);
    Words.put64(b, ((int) (l0 + 32L)) - 58912, l7);
    Words.put64(b, ((int) (l0 + 24L)) - 58912, l6);
    Words.put64(b, ((int) (l0 + 16L)) - 58912, l4);
    Words.put64(b, ((int) (l0 + 8L)) - 58912, l1);
    break L1;
   }
   Words.put64(b, ((int) l0) - 58872, 0L);
   Words.put64(b, ((int) l0) - 58880, 0L);
   Words.put64(b, ((int) l0) - 58888, 0L);
   Words.put64(b, ((int) l0) - 58896, 0L);
   Words.put64(b, ((int) l0) - 58904, 0L);
   Words.put64(b, ((int) l0) - 58912, 0L);
   break L1;
  }
  Words.put64(b, ((int) l0) - 58872, 0L);
  Words.put64(b, ((int) l0) - 58880, 0L);
  Words.put64(b, ((int) l0) - 58888, 0L);
  Words.put64(b, ((int) l0) - 58896, 0L);
  Words.put64(b, ((int) l0) - 58904, 0L);
  Words.put64(b, ((int) l0) - 58912, 0L);
 }
 m.g0 = l3 + 112L;
}

static void f88(State m, long l0, int l1, long l2, long l3, long l4) {
 final byte[] b = m.bytes;
 long l5 = 0;
 long l6 = 0;
 long l7 = 0;
 long l8 = 0;
 long l9 = 0;
 int l10 = 0;
 int l11 = 0;
 m.g0 = l5 = m.g0 - 304L;
 L1: {
  if ((l5 = l5) < 16L) { break L1; }
  Words.put64(b, ((int) l5) - 58776, 0L);
  Words.put64(b, ((int) l5) - 58784, 0L);
  Words.put64(b, ((int) l5) - 58792, 0L);
  Words.put64(b, ((int) l5) - 58800, 0L);
  Words.put64(b, ((int) l5) - 58808, 0L);
  Words.put64(b, ((int) l5) - 58816, 0L);
  Words.put64(b, ((int) l5) - 58848, 0L);
  Words.put64(b, ((int) l5) - 58840, 0L);
  Words.put64(b, ((int) l5) - 58832, 0L);
  Words.put64(b, ((int) l5) - 58824, 0L);
  f99(m, l5 + 96L, l3, l4);
  L2: {
   L3: {
    if ((b[((int) l5) - 58816] & 0xff) != 0) { break L3; }
    f100(m, l5 + 64L, l1, l2, l3, l4);
    l1 = b[((int) l5) - 58840] & 0xff;
    l10 = b[((int) l5) - 58848] & 0xff;
    break L2;
   }
   l10 = b[((int) l5) - 58775] & 0xff;
   l6 = Words.get64(b, ((int) l5) - 58784);
   l7 = Words.get64(b, ((int) l5) - 58792);
   l11 = b[((int) l5) - 58776] & 0xff;
   Words.put64(b, ((int) l5) - 58736, 0L);
   Words.put64(b, ((int) l5) - 58728, 0L);
   Words.put64(b, ((int) l5) - 58720, 0L);
   Words.put64(b, ((int) l5) - 58712, 0L);
   Words.put64(b, ((int) l5) - 58704, 0L);
   Words.put64(b, ((int) l5) - 58696, 0L);
   Words.put64(b, ((int) l5) - 58768, 0L);
   Words.put64(b, ((int) l5) - 58760, 0L);
   Words.put64(b, ((int) l5) - 58752, 0L);
   Words.put64(b, ((int) l5) - 58744, 0L);
   l8 = l5 + 138L;
   l9 = l5 + 104L;
   L4: {
    L5: {
     L6: {
      if (l11 != 1) { break L6; }
      f99(m, l5 + 176L, l7, l6);
      if ((b[((int) l5) - 58736] & 0xff) != 0) { break L5; }
      b[((int) l5) - 58615] = (byte) l10;
      b[((int) l5) - 58616] = (byte) 1;
      Words.put64(b, ((int) l5) - 58624, l6);
      Words.put64(b, ((int) l5) - 58632, l7);
      Words.put64(b, ((int) l5) - 58640, Words.get64(b, ((int) l9) - 58904));
      Words.put64(b, ((int) l5) - 58648, Words.get64(b, ((int) l9) - 58912));
      Words.put32(b, ((int) l5) - 58614, Words.get32(b, ((int) l8) - 58912));
      Words.put16(b, ((int) l5) - 58610, (short) (Words.get16(b, ((int) l8) - 58908) & 0xffff));
      f101(m, l5 + 144L, l1, l2, l10, l5 + 264L);
      l4 = Words.get64(b, ((int) l5) - 58744);
      l3 = Words.get64(b, ((int) l5) - 58752);
      l1 = b[((int) l5) - 58760] & 0xff;
      l10 = b[((int) l5) - 58768] & 0xff;
      break L4;
     }
     b[((int) l5) - 58615] = (byte) l10;
     b[((int) l5) - 58616] = (byte) 0;
     Words.put64(b, ((int) l5) - 58624, l6);
     Words.put64(b, ((int) l5) - 58632, l7);
     Words.put64(b, ((int) l5) - 58688, 0L);
     Words.put64(b, ((int) l5) - 58680, 0L);
     Words.put64(b, ((int) l5) - 58672, 0L);
     Words.put64(b, ((int) l5) - 58664, 0L);
     Words.put64(b, ((int) l5) - 58648, Words.get64(b, ((int) l9) - 58912));
     Words.put64(b, ((int) l5) - 58640, Words.get64(b, ((int) l9) - 58904));
     Words.put32(b, ((int) l5) - 58614, Words.get32(b, ((int) l8) - 58912));
     Words.put16(b, ((int) l5) - 58610, (short) (Words.get16(b, ((int) l8) - 58908) & 0xffff));
     f100(m, l5 + 224L, l1, l2, l3, l4);
     L7: {
      L8: {
       if ((b[((int) l5) - 58688] & 0xff) != 0) { break L8; }
       f102(m, l5 + 32L, l2, l5 + 264L);
       l4 = Words.get64(b, ((int) l5) - 58872);
       l1 = b[((int) l5) - 58880] & 0xff;
       break L7;
      }
      l1 = b[((int) l5) - 58680] & 0xff;
      l4 = Words.get64(b, ((int) l5) - 58672);
      f102(m, l5 + 48L, l2, l5 + 264L);
      final long t9 = l4;
      final long t10 = l3 = Words.get64(b, ((int) l5) - 58856);
      final int t11 = l10 = (((l1 != 1) | ((b[((int) l5) - 58864] & 0xff) == 0)) | (l4 + Long.MIN_VALUE > l3 + Long.MIN_VALUE)) ? 1 : 0;
      l4 = t11 != 0 ? t9 : t10;
      l1 = l10 != 0 ? l1 : 1;
     }
     Words.put64(b, ((int) l5) - 58824, 0L);
     Words.put64(b, ((int) l5) - 58832, l4);
     l10 = 1;
     break L2;
    }
    b[((int) l5) - 58615] = (byte) l10;
    b[((int) l5) - 58616] = (byte) 1;
    Words.put64(b, ((int) l5) - 58624, l6);
    Words.put64(b, ((int) l5) - 58632, l7);
    Words.put64(b, ((int) l5) - 58688, 0L);
    Words.put64(b, ((int) l5) - 58680, 0L);
    Words.put64(b, ((int) l5) - 58672, 0L);
    Words.put64(b, ((int) l5) - 58664, 0L);
    Words.put64(b, ((int) l5) - 58648, Words.get64(b, ((int) l9) - 58912));
    Words.put64(b, ((int) l5) - 58640, Words.get64(b, ((int) l9) - 58904));
    Words.put32(b, ((int) l5) - 58614, Words.get32(b, ((int) l8) - 58912));
    Words.put16(b, ((int) l5) - 58610, (short) (Words.get16(b, ((int) l8) - 58908) & 0xffff));
    f100(m, l5 + 224L, l1, l2, l3, l4);
    L12: {
     L13: {
      if ((b[((int) l5) - 58688] & 0xff) != 0) { break L13; }
      f102(m, l5, l2, l5 + 264L);
      l3 = Words.get64(b, ((int) l5) - 58904);
      l1 = b[((int) l5) - 58912] & 0xff;
      break L12;
     }
     l1 = b[((int) l5) - 58680] & 0xff;
     l4 = Words.get64(b, ((int) l5) - 58672);
     f102(m, l5 + 16L, l2, l5 + 264L);
     final long t14 = l4;
     final long t15 = l3 = Words.get64(b, ((int) l5) - 58888);
     final int t16 = l10 = (((l1 != 1) | ((b[((int) l5) - 58896] & 0xff) == 0)) | (l4 + Long.MIN_VALUE > l3 + Long.MIN_VALUE)) ? 1 : 0;
     l3 = t16 != 0 ? t14 : t15;
     l1 = l10 != 0 ? l1 : 1;
    }
    l10 = 1;
    l4 = 0L;
   }
   Words.put64(b, ((int) l5) - 58824, l4);
   Words.put64(b, ((int) l5) - 58832, l3);
  }
  Words.put64(b, ((int) (l0 + 16L)) - 58912, Words.get64(b, ((int) l5) - 58832));
  Words.put64(b, ((int) (l0 + 24L)) - 58912, Words.get64(b, ((int) l5) - 58824));
  Words.put64(b, ((int) (l0 + 8L)) - 58912, (l1 & 0xffffffffL) & 255L);
  Words.put64(b, ((int) l0) - 58912, (l10 & 0xffffffffL) & 255L);
  m.g0 = l5 + 304L;
  return;
 }
 throw State.trap();
}

static void f89(State m, long l0, int l1, long l2, long l3, long l4) {
 final byte[] b = m.bytes;
 long l5 = 0;
 long l6 = 0;
 long l7 = 0;
 long l8 = 0;
 long l9 = 0;
 int l10 = 0;
 int l11 = 0;
 int l12 = 0;
 int l13 = 0;
 m.g0 = l5 = m.g0 - 48L;
 L1: {
  L2: {
   L3: {
    if ((l6 = l5) < 16L) { break L3; }
    Words.put64(b, ((int) l6) - 58872, 0L);
    Words.put64(b, ((int) l6) - 58880, 0L);
    Words.put64(b, ((int) l6) - 58888, 0L);
    Words.put64(b, ((int) l6) - 58896, 0L);
    Words.put64(b, ((int) l6) - 58904, 0L);
    Words.put64(b, ((int) l6) - 58912, 0L);
    L4: {
     if (l4 == 0L) { break L4; }
     l7 = l2;
     l8 = l4;
     l5 = l3;
     L5: while (true) {
      L6: {
       L7: {
        if ((l10 = b[((int) l5) - 58912] & 0xff) + Integer.MIN_VALUE > -2147483616) { break L7; }
        if (((1L << (l10 & 0xffffffffL)) & 4294983168L) == 0L) { break L7; }
        l9 = 1L;
        break L6;
       }
       L8: {
        if (l10 != 194) { break L8; }
        if (l8 == 1L) { break L2; }
        l9 = 2L;
        if ((l10 = b[((int) l5) - 58911] & 0xff) == 133) { break L6; }
        if (l10 == 160) { break L6; }
        break L2;
       }
       if (l8 + Long.MIN_VALUE < -9223372036854775805L) { break L2; }
       if (((l10 + 28) & 255) + Integer.MIN_VALUE < -2147483395) { break L2; }
       l11 = b[((int) (l5 + 1L)) - 58912] & 0xff;
       l13 = (int) (byte) (l12 = b[((int) (l5 + 2L)) - 58912] & 0xff);
       L9: {
        if (l10 != 226) { break L9; }
        if ((l11 & 255) != 128) { break L9; }
        l9 = 3L;
        if (l13 < -117) { break L6; }
        if ((l10 = l12 + -168) + Integer.MIN_VALUE > -2147483641) { break L2; }
        if (((1 << l10) & 131) == 0) { break L2; }
        break L6;
       }
       L10: {
        L11: {
         L12: {
          L13: {
           switch (l10 + -225) {
           case 1: break L12;
           case 2: break L11;
           default: break L13;
           }
          }
          if ((l11 & 255) != 154) { break L2; }
          if (l13 != -128) { break L2; }
          break L10;
         }
         if ((l11 & 255) != 129) { break L2; }
         if (l13 != -97) { break L2; }
         break L10;
        }
        if ((l11 & 255) != 128) { break L2; }
        if (l13 != -128) { break L2; }
       }
       l9 = 3L;
      }
      l7 = l7 + 1L;
      l5 = l5 + l9;
      if (!((l8 = l8 - l9) == 0L)) { continue L5; }
      break L5;
     }
    }
    Words.put64(b, ((int) l0) - 58912, 1L);
    Words.put64(b, ((int) (l0 + 8L)) - 58912, 0L);
    Words.put64(b, ((int) (l0 + 16L)) - 58912, 0L);
    Words.put64(b, ((int) (l0 + 24L)) - 58912, 0L);
    break L1;
   }
   throw State.trap();
  }
  f90(m, l6, l1, l2, l3, l4);
  l5 = Words.get64(b, ((int) l6) - 58896);
  L14: {
   if ((b[((int) l6) - 58912] & 0xff) != 0) { break L14; }
   final int t15 = (int) (l0 + 24L);
   final long t16 = l9 = Words.get64(b, ((int) l6) - 58888);
   final int t17 = l10 = (((l5 | l9) == 0L) | (Words.get64(b, ((int) l6) - 58880) != 0L)) ? 1 : 0;
   Words.put64(b, t15 - 58912, t17 != 0 ? 0L : t16);
   Words.put64(b, ((int) (l0 + 16L)) - 58912, l10 != 0 ? l7 : l5);
   Words.put64(b, ((int) (l0 + 8L)) - 58912, l5 = l10 & 0xffffffffL);
   Words.put64(b, ((int) l0) - 58912, l5);
   break L1;
  }
  Words.put64(b, ((int) l0) - 58912, 1L);
  Words.put64(b, ((int) (l0 + 24L)) - 58912, 0L);
  Words.put64(b, ((int) (l0 + 16L)) - 58912, l5);
  Words.put64(b, ((int) (l0 + 8L)) - 58912, b[((int) l6) - 58904] & 0xffL);
 }
 m.g0 = l6 + 48L;
}

static void f90(State m, long l0, int l1, long l2, long l3, long l4) {
 final byte[] b = m.bytes;
 long l5 = 0;
 long l6 = 0;
 long l7 = 0;
 int l8 = 0;
 int l9 = 0;
 int l10 = 0;
 m.g0 = l5 = m.g0 - 160L;
 L1: {
  if ((l5 = l5) < 16L) { break L1; }
  Words.put64(b, ((int) l5) - 58792, 0L);
  Words.put64(b, ((int) l5) - 58800, 0L);
  Words.put64(b, ((int) l5) - 58808, 0L);
  Words.put64(b, ((int) l5) - 58816, 0L);
  Words.put64(b, ((int) l5) - 58824, 0L);
  Words.put64(b, ((int) l5) - 58832, 0L);
  Words.put64(b, ((int) l5) - 58864, 0L);
  Words.put64(b, ((int) l5) - 58856, 0L);
  Words.put64(b, ((int) l5) - 58848, 0L);
  Words.put64(b, ((int) l5) - 58840, 0L);
  Words.put64(b, ((int) l5) - 58896, 0L);
  Words.put64(b, ((int) l5) - 58888, 0L);
  Words.put64(b, ((int) l5) - 58880, 0L);
  Words.put64(b, ((int) l5) - 58872, 0L);
  f86(m, l5 + 48L, l3, l4);
  l8 = 1;
  L2: {
   L3: {
    L4: {
     if ((b[((int) l5) - 58864] & 0xff) != 1) { break L4; }
     Words.put64(b, ((int) l5) - 58760, 0L);
     Words.put64(b, ((int) l5) - 58768, 0L);
     Words.put64(b, ((int) l5) - 58776, 0L);
     Words.put64(b, ((int) l5) - 58784, 0L);
     l6 = l3;
     l7 = l4;
     L5: while (true) {
      f86(m, l5 + 128L, l6, l7);
      l9 = 1;
      if ((b[((int) l5) - 58784] & 0xff) != 1) { break L3; }
      l7 = Words.get64(b, ((int) l5) - 58760);
      l6 = Words.get64(b, ((int) l5) - 58768);
      Core2.f61(m, l5 + 8L, Words.get32(b, ((int) l5) - 58776));
      if ((b[((int) l5) - 58904] & 0xff) != 1) { break L4; }
      l9 = l8 & 255;
      l8 = l10 = b[((int) l5) - 58903] & 0xff;
      if (l9 + Integer.MIN_VALUE < (l10 & 255) + Integer.MIN_VALUE) { continue L5; }
      break L5;
     }
    }
    f92(m, l5 + 80L, l1, l2, l3, l4);
    l8 = b[((int) l5) - 58824] & 0xff;
    l9 = b[((int) l5) - 58832] & 0xff;
    break L2;
   }
   f93(m, l5 + 16L, l1, 1L, 0L, l3, l4);
   l8 = 2;
   l6 = 0L;
   l7 = 0L;
   L6: {
    if ((b[((int) l5) - 58896] & 0xff) != 1) { break L6; }
    l9 = 0;
    l7 = Words.get64(b, ((int) l5) - 58872);
    l6 = Words.get64(b, ((int) l5) - 58880);
    l8 = 0;
   }
   Words.put64(b, ((int) l5) - 58808, l7);
   Words.put64(b, ((int) l5) - 58816, l6);
   Words.put64(b, ((int) l5) - 58800, 0L);
   Words.put64(b, ((int) l5) - 58792, 0L);
  }
  Words.put64(b, ((int) (l0 + 16L)) - 58912, Words.get64(b, ((int) l5) - 58816));
  Words.put64(b, ((int) (l0 + 24L)) - 58912, Words.get64(b, ((int) l5) - 58808));
  Words.put64(b, ((int) (l0 + 32L)) - 58912, Words.get64(b, ((int) l5) - 58800));
  Words.put64(b, ((int) (l0 + 40L)) - 58912, Words.get64(b, ((int) l5) - 58792));
  Words.put64(b, ((int) (l0 + 8L)) - 58912, (l8 & 0xffffffffL) & 255L);
  Words.put64(b, ((int) l0) - 58912, (l9 & 0xffffffffL) & 255L);
  m.g0 = l5 + 160L;
  return;
 }
 throw State.trap();
}

static void f91(State m, long l0, long l1, long l2) {
 final byte[] b = m.bytes;
 long l3 = 0;
 long l4 = 0;
 int l5 = 0;
 int l6 = 0;
 int l7 = 0;
 int l8 = 0;
 L1: {
  L2: {
   L3: {
    if (m.g0 < 16L) { break L3; }
    L4: {
     if (l2 == 0L) { break L4; }
     L5: while (true) {
      l3 = -1L;
      L6: {
       if (((l5 = b[((int) ((l4 = l1 + l2) + -1L)) - 58912] & 0xff) + -9) + Integer.MIN_VALUE < -2147483643) { break L6; }
       if (l5 == 32) { break L6; }
       l3 = 1L;
       if (l2 == 1L) { break L1; }
       l3 = 2L;
       L7: {
        if (l2 + Long.MIN_VALUE > -9223372036854775806L) { break L7; }
        L8: {
         if ((l5 = b[((int) l1) - 58911] & 0xff) == 160) { break L8; }
         if (l5 != 133) { break L1; }
        }
        if ((b[((int) l1) - 58912] & 0xff) != 194) { break L1; }
        l3 = -2L;
        break L6;
       }
       L9: {
        L10: {
         L11: {
          if (l5 == 160) { break L11; }
          if (l5 != 133) { break L10; }
         }
         l3 = -2L;
         if ((l6 = b[((int) (l4 + -2L)) - 58912] & 0xff) != 194) { break L9; }
         break L6;
        }
        if (((int) (byte) l5) > -1) { break L2; }
        l6 = b[((int) (l4 + -2L)) - 58912] & 0xff;
       }
       l7 = b[((int) (l4 + -3L)) - 58912] & 0xff;
       L12: {
        if ((l6 & 255) != 128) { break L12; }
        if (l7 != 226) { break L12; }
        l3 = -3L;
        if (l5 + Integer.MIN_VALUE < -2147483509) { break L6; }
        if ((l5 = l5 + -168) + Integer.MIN_VALUE > -2147483641) { break L2; }
        if (((1 << l5) & 131) == 0) { break L2; }
        break L6;
       }
       l3 = l2;
       L13: {
        L14: {
         L15: {
          L16: {
           switch (l7 + -225) {
           case 0: break L16;
           case 1: break L15;
           case 2: break L14;
           default: break L1;
           }
          }
          if (l5 != 128) { break L2; }
          if ((l6 & 255) != 154) { break L2; }
          break L13;
         }
         if (l5 != 159) { break L2; }
         if ((l6 & 255) != 129) { break L2; }
         break L13;
        }
        if (l5 != 128) { break L2; }
        if ((l6 & 255) != 128) { break L2; }
       }
       l3 = -3L;
      }
      if (!((l2 = l3 + l2) == 0L)) { continue L5; }
      break L5;
     }
    }
    Words.put64(b, ((int) l0) - 58888, 0L);
    Words.put64(b, ((int) l0) - 58896, 0L);
    Words.put64(b, ((int) l0) - 58904, 0L);
    Words.put64(b, ((int) l0) - 58912, 0L);
    return;
   }
   throw State.trap();
  }
  l3 = l2;
 }
 L17: {
  if ((l5 = (int) b[((int) (l1 + (l2 = l3 + -1L))) - 58912]) >= 0) { break L17; }
  l2 = -2L;
  L18: {
   if ((b[((int) ((l4 = l1 + l3) + -2L)) - 58912] & 0xff) + Integer.MIN_VALUE > -2147483457) { break L18; }
   l2 = ((b[((int) (l4 + -3L)) - 58912] & 0xff) + Integer.MIN_VALUE > -2147483457) ? -3L : -4L;
  }
  l5 = (l6 = (int) b[((int) (l3 = l1 + (l2 = l2 + l3))) - 58912]) & 255;
  if (l6 > -1) { break L17; }
  l7 = (b[((int) l3) - 58911] & 0xff) & 63;
  L19: {
   if (l6 + Integer.MIN_VALUE > 2147483615) { break L19; }
   l5 = ((l5 << 6) & 1984) | l7;
   break L17;
  }
  l8 = (b[((int) l3) - 58910] & 0xff) & 63;
  L20: {
   if (l6 + Integer.MIN_VALUE > 2147483631) { break L20; }
   l5 = ((l7 << 6) | ((l5 << 12) & 61440)) | l8;
   break L17;
  }
  l5 = ((l8 << 6) | ((l7 << 12) | ((l5 << 18) & 1835008))) | ((b[((int) l3) - 58909] & 0xff) & 63);
 }
 Words.put64(b, ((int) l0) - 58912, 1L);
 Words.put64(b, ((int) (l0 + 24L)) - 58912, l2);
 Words.put64(b, ((int) (l0 + 16L)) - 58912, l1);
 Words.put32(b, ((int) (l0 + 12L)) - 58912, 0);
 Words.put32(b, ((int) (l0 + 8L)) - 58912, l5);
}

static int f92_1(State m, int l1, long l5, long l6, long l7, long l8, long l9, long l10, long l11, long l12, long l13, long l14, long l15, long l16, long l17, long l18, long l19, long l20, long l21, long l22, long l23, int l24, int l25, int l26) {
 final byte[] b = m.bytes;
 int exit = 0;
 PART: {
  L24: {
   if ((b[((int) l5) - 58448] & 0xff) != 1) { break L24; }
   if (Words.get64(b, ((int) l5) - 58432) == 0L) { break L24; }
   if (((b[((int) l5) - 58400] & 0xff) & 1) != 0) { break L24; }
   l6 = Words.get64(b, ((int) l5) - 58408);
   l8 = Words.get64(b, ((int) l5) - 58416);
   f86(m, l5 + 624L, l7 = Words.get64(b, ((int) l5) - 58392), l9 = Words.get64(b, ((int) l5) - 58384));
   if ((b[((int) l5) - 58288] & 0xff) != 1) { break L24; }
   f97(m, l5 + 560L, l1, 0L, 0L, l8, l6, l7, l9);
   if ((b[((int) l5) - 58352] & 0xff) != 1) { break L24; }
   l10 = Words.get64(b, ((int) l5) - 58312);
   l12 = Words.get64(b, ((int) l5) - 58320);
   l7 = Words.get64(b, ((int) l5) - 58328);
   l8 = Words.get64(b, ((int) l5) - 58336);
   l25 = b[((int) l5) - 58304] & 0xff;
   f86(m, l5 + 400L, l6 = Words.get64(b, ((int) l5) - 58376), l9 = Words.get64(b, ((int) l5) - 58368));
   L25: {
    if ((b[((int) l5) - 58512] & 0xff) != 1) { break L25; }
    L26: while (true) {
     Words.put64(b, ((int) l5) - 58424, 0L);
     Words.put64(b, ((int) l5) - 58432, 0L);
     Words.put64(b, ((int) l5) - 58440, 0L);
     Words.put64(b, ((int) l5) - 58448, 0L);
     f86(m, l5 + 464L, l6, l9);
     L27: {
      L28: {
       if ((b[((int) l5) - 58448] & 0xff) == 1) { break L28; }
       l24 = 0;
       break L27;
      }
      L29: {
       if ((l26 = Words.get32(b, ((int) l5) - 58440)) == 38646) { break L29; }
       l24 = 0;
       if (l26 != 12295) { break L27; }
      }
      l24 = 1;
      l6 = Words.get64(b, ((int) l5) - 58432);
      l9 = Words.get64(b, ((int) l5) - 58424);
     }
     m.fill((int) (l5 + 464L), 0, (int) 96L);
     Words.put64(b, ((int) l5) - 58456, 0L);
     Words.put64(b, ((int) l5) - 58464, 0L);
     Words.put64(b, ((int) l5) - 58472, 0L);
     Words.put64(b, ((int) l5) - 58480, 0L);
     f96(m, l5 + 464L, l6, l9);
     if ((b[((int) l5) - 58448] & 0xff) != 1) { break L24; }
     if ((l13 = Words.get64(b, ((int) l5) - 58432)) == 0L) { break L24; }
     l14 = Words.get64(b, ((int) l5) - 58408);
     l11 = Words.get64(b, ((int) l5) - 58416);
     l9 = Words.get64(b, ((int) l5) - 58368);
     l6 = Words.get64(b, ((int) l5) - 58376);
     l26 = b[((int) l5) - 58400] & 0xff;
     f86(m, l5 + 432L, l15 = Words.get64(b, ((int) l5) - 58392), l16 = Words.get64(b, ((int) l5) - 58384));
     L30: {
      L31: {
       if ((b[((int) l5) - 58480] & 0xff) != 1) { break L31; }
       L32: {
        final int t33 = l24;
        final int t34 = (l12 + Long.MIN_VALUE < -9223372036754775808L) ? 1 : 0;
        final int t35 = (l10 == 0L) ? 1 : 0;
        if ((t33 | (t35 != 0 ? t34 : 0)) != 0) { break L32; }
        Words.put64(b, ((int) l5) - 58328, 0L);
        Words.put64(b, ((int) l5) - 58336, 0L);
        Words.put64(b, ((int) l5) - 58344, 0L);
        Words.put64(b, ((int) l5) - 58352, 0L);
        f93(m, l5 + 560L, l1, 1L, 0L, l15, l16);
        if ((b[((int) l5) - 58352] & 0xff) != 1) { break L32; }
        final int t36 = (Words.get64(b, ((int) l5) - 58336) + Long.MIN_VALUE < -9223372036854765808L) ? 1 : 0;
        final int t37 = (Words.get64(b, ((int) l5) - 58328) == 0L) ? 1 : 0;
        if ((t37 != 0 ? t36 : 0) != 0) { break L24; }
       }
       Words.put64(b, ((int) l5) - 58296, 0L);
       Words.put64(b, ((int) l5) - 58304, 0L);
       Words.put64(b, ((int) l5) - 58312, 0L);
       Words.put64(b, ((int) l5) - 58320, 0L);
       Words.put64(b, ((int) l5) - 58328, 0L);
       Words.put64(b, ((int) l5) - 58336, 0L);
       Words.put64(b, ((int) l5) - 58344, 0L);
       Words.put64(b, ((int) l5) - 58352, 0L);
       if ((l26 & 1) != 0) { break L24; }
       Words.put64(b, ((int) l5) - 58264, 0L);
       Words.put64(b, ((int) l5) - 58272, 0L);
       Words.put64(b, ((int) l5) - 58280, 0L);
       Words.put64(b, ((int) l5) - 58288, 0L);
       f93(m, l5 + 624L, l1, l11, l14, l15, l16);
       if ((b[((int) l5) - 58288] & 0xff) != 1) { break L24; }
       final int t38 = (Words.get64(b, ((int) l5) - 58272) + Long.MIN_VALUE >= l12 + Long.MIN_VALUE) ? 1 : 0;
       final int t39 = ((l12 = Words.get64(b, ((int) l5) - 58264)) + Long.MIN_VALUE >= l10 + Long.MIN_VALUE) ? 1 : 0;
       final int t40 = (l12 == l10) ? 1 : 0;
       if ((t40 != 0 ? t38 : t39) != 0) { break L24; }
       f97(m, l5 + 560L, l1, l8, l7, l11, l14, l15, l16);
       if ((b[((int) l5) - 58352] & 0xff) != 1) { break L24; }
       l10 = Words.get64(b, ((int) l5) - 58312);
       l12 = Words.get64(b, ((int) l5) - 58320);
       l7 = Words.get64(b, ((int) l5) - 58328);
       l8 = Words.get64(b, ((int) l5) - 58336);
       l25 = b[((int) l5) - 58304] & 0xff;
       break L30;
      }
      L41: {
       L42: {
        if (l24 == 0) { break L42; }
        if ((l26 & 1) != 0) { break L24; }
        final int t43 = (l11 + Long.MIN_VALUE >= l12 + Long.MIN_VALUE) ? 1 : 0;
        final int t44 = (l14 + Long.MIN_VALUE >= l10 + Long.MIN_VALUE) ? 1 : 0;
        final int t45 = (l14 == l10) ? 1 : 0;
        if ((t45 != 0 ? t43 : t44) != 0) { break L24; }
        final int t46 = (l8 + Long.MIN_VALUE > (l11 ^ -1L) + Long.MIN_VALUE) ? 1 : 0;
        final int t47 = (l7 + Long.MIN_VALUE > (l10 = l14 ^ -1L) + Long.MIN_VALUE) ? 1 : 0;
        final int t48 = (l7 == l10) ? 1 : 0;
        if ((t48 != 0 ? t46 : t47) != 0) { break L24; }
        l7 = (l14 + l7) + (((l8 = l11 + l8) + Long.MIN_VALUE < l11 + Long.MIN_VALUE) ? 1L : 0L);
        break L41;
       }
       if (l13 + Long.MIN_VALUE > -9223372036854775770L) { break L24; }
       L49: {
        if (((l12 ^ Words.get64(b, ((int) ((l15 = l13 << 4L) + 68336L)) - 58912)) | (l10 ^ Words.get64(b, ((int) (l15 + 68344L)) - 58912))) != 0L) { break L49; }
        final int t50 = (l8 + Long.MIN_VALUE > (l11 ^ -1L) + Long.MIN_VALUE) ? 1 : 0;
        final int t51 = (l7 + Long.MIN_VALUE > (l10 = l14 ^ -1L) + Long.MIN_VALUE) ? 1 : 0;
        final int t52 = (l7 == l10) ? 1 : 0;
        if ((t52 != 0 ? t50 : t51) != 0) { break L24; }
        l7 = (l14 + l7) + (((l8 = l11 + l8) + Long.MIN_VALUE < l11 + Long.MIN_VALUE) ? 1L : 0L);
        break L41;
       }
       if ((((l13 == 1L) ? 1 : 0) & l25) != 1) { break L24; }
       if ((l26 & 1) != 0) { break L24; }
       final long t53 = l10;
       final int t54 = ((l12 | l10) == 0L) ? 1 : 0;
       final long t55 = (long) Long.numberOfLeadingZeros(l10);
       final long t56 = ((long) Long.numberOfLeadingZeros(l12)) + 64L;
       final int t57 = (l10 != 0L) ? 1 : 0;
       final int t58 = ((l17 = 124L - (l15 = t57 != 0 ? t55 : t56)) + Long.MIN_VALUE > -9223372036854775681L) ? 1 : 0;
       final int t59 = ((l18 = 0L - ((l15 + Long.MIN_VALUE > -9223372036854775684L) ? 1L : 0L)) != 0L) ? 1 : 0;
       final int t60 = (l18 == 0L) ? 1 : 0;
       l16 = ((l24 = t54 | (t60 != 0 ? t58 : t59)) != 0) ? 0L : t53;
       l15 = l24 != 0 ? 0L : l12;
       L61: {
        if (l24 != 0) { break L61; }
        if (((l17 ^ 127L) | l18) == 0L) { break L61; }
        Core1.f4(m, l5 + 96L, l12, l10, 127 - ((int) l17));
        l13 = Words.get64(b, ((int) l5) - 58808);
        l15 = Words.get64(b, ((int) l5) - 58816);
        L62: {
         L63: {
          if (((l16 = l17 + 1L) | (l17 = l18 + ((l16 == 0L) ? 1L : 0L))) == 0L) { break L63; }
          Core1.f5(m, l5 + 80L, l12, l10, (int) l16);
          l19 = 10L + -1L;
          l20 = 0L - ((10L == 0L) ? 1L : 0L);
          l12 = Words.get64(b, ((int) l5) - 58824);
          l10 = Words.get64(b, ((int) l5) - 58832);
          l18 = 0L;
          L64: while (true) {
           l21 = l18;
           l18 = (l10 = ((l20 - (l22 = (l12 << 1L) | (l10 >>> 63L))) - ((l19 + Long.MIN_VALUE < (l12 = (l10 << 1L) | (l13 >>> 63L)) + Long.MIN_VALUE) ? 1L : 0L)) >> 63L) & 1L;
           l10 = l12 - (l23 = l10 & 10L);
           l12 = l22 - ((l12 + Long.MIN_VALUE < l23 + Long.MIN_VALUE) ? 1L : 0L);
           l13 = 0L | ((l13 << 1L) | (l15 >>> 63L));
           l24 = (l16 == 0L) ? 1 : 0;
           l15 = l21 | (l15 << 1L);
           l16 = l21 = l16 + -1L;
           if (!((l21 | (l17 = l17 - (l24 & 0xffffffffL))) == 0L)) { continue L64; }
           break L62;
          }
         }
         l18 = 0L;
        }
        l16 = (l13 << 1L) | (l15 >>> 63L);
        l15 = l18 | (l15 << 1L);
       }
       Core1.f3(m, l5 + 32L, l11, 0L, l15, 0L);
       Core1.f3(m, l5 + 64L, l11, 0L, l16, 0L);
       Core1.f3(m, l5 + 16L, l14, 0L, l15, 0L);
       Core1.f3(m, l5 + 48L, l14, 0L, l16, 0L);
       if ((((Words.get64(b, ((int) l5) - 58888) + (((l11 = (l10 = (l14 = Words.get64(b, ((int) l5) - 58872)) + Words.get64(b, ((int) l5) - 58848)) + Words.get64(b, ((int) l5) - 58896)) + Long.MIN_VALUE < l10 + Long.MIN_VALUE) ? 1L : 0L)) | (l14 = (l10 = Words.get64(b, ((int) l5) - 58840) + ((l10 + Long.MIN_VALUE < l14 + Long.MIN_VALUE) ? 1L : 0L)) + Words.get64(b, ((int) l5) - 58864))) | (Words.get64(b, ((int) l5) - 58856) + ((l14 + Long.MIN_VALUE < l10 + Long.MIN_VALUE) ? 1L : 0L))) != 0L) { break L24; }
       final int t65 = (l8 + Long.MIN_VALUE > ((l10 = Words.get64(b, ((int) l5) - 58880)) ^ -1L) + Long.MIN_VALUE) ? 1 : 0;
       final int t66 = (l7 + Long.MIN_VALUE > (l14 = l11 ^ -1L) + Long.MIN_VALUE) ? 1 : 0;
       final int t67 = (l7 == l14) ? 1 : 0;
       if ((t67 != 0 ? t65 : t66) != 0) { break L24; }
       l7 = (l11 + l7) + (((l8 = l10 + l8) + Long.MIN_VALUE < l10 + Long.MIN_VALUE) ? 1L : 0L);
      }
      l12 = 0L;
      l25 = 0;
      l10 = 0L;
     }
     f86(m, l5 + 400L, l6, l9);
     if ((b[((int) l5) - 58512] & 0xff) == 1) { continue L26; }
     break L26;
    }
   }
   l24 = 0;
   l6 = 0L;
   exit = 1; break PART;
  }
 }
 m.kept[0] = l6;
 m.kept[1] = l7;
 m.kept[2] = l8;
 m.kept[3] = l9;
 m.kept[4] = l10;
 m.kept[5] = l11;
 m.kept[6] = l12;
 m.kept[7] = l13;
 m.kept[8] = l14;
 m.kept[9] = l15;
 m.kept[10] = l16;
 m.kept[11] = l17;
 m.kept[12] = l18;
 m.kept[13] = l19;
 m.kept[14] = l20;
 m.kept[15] = l21;
 m.kept[16] = l22;
 m.kept[17] = l23;
 m.kept[18] = l24;
 m.kept[19] = l25;
 m.kept[20] = l26;
 return exit;
}

static void f92(State m, long l0, int l1, long l2, long l3, long l4) {
 final byte[] b = m.bytes;
 long l5 = 0;
 long l6 = 0;
 long l7 = 0;
 long l8 = 0;
 long l9 = 0;
 long l10 = 0;
 long l11 = 0;
 long l12 = 0;
 long l13 = 0;
 long l14 = 0;
 long l15 = 0;
 long l16 = 0;
 long l17 = 0;
 long l18 = 0;
 long l19 = 0;
 long l20 = 0;
 long l21 = 0;
 long l22 = 0;
 long l23 = 0;
 int l24 = 0;
 int l25 = 0;
 int l26 = 0;
 m.g0 = l5 = m.g0 - 656L;
 L1: {
  L2: {
   L3: {
    L4: {
     L5: {
      L6: {
       if ((l5 = l5) < 16L) { break L6; }
       l6 = 0L;
       Words.put64(b, ((int) l5) - 58696, 0L);
       Words.put64(b, ((int) l5) - 58704, 0L);
       Words.put64(b, ((int) l5) - 58712, 0L);
       Words.put64(b, ((int) l5) - 58720, 0L);
       f88(m, l5 + 192L, l1, l2, l3, l4);
       L7: {
        if ((b[((int) l5) - 58720] & 0xff) != 0) { break L7; }
        l7 = Words.get64(b, ((int) l5) - 58696);
        l8 = Words.get64(b, ((int) l5) - 58704);
        l9 = 0L;
        l10 = 0L;
        break L1;
       }
       Words.put64(b, ((int) l5) - 58544, 0L);
       Words.put64(b, ((int) l5) - 58536, 0L);
       Words.put64(b, ((int) l5) - 58528, 0L);
       Words.put64(b, ((int) l5) - 58520, 0L);
       Words.put64(b, ((int) l5) - 58592, 0L);
       Words.put64(b, ((int) l5) - 58584, 0L);
       Words.put64(b, ((int) l5) - 58576, 0L);
       Words.put64(b, ((int) l5) - 58568, 0L);
       Words.put64(b, ((int) l5) - 58560, 0L);
       Words.put64(b, ((int) l5) - 58552, 0L);
       Words.put64(b, ((int) l5) - 58624, 0L);
       Words.put64(b, ((int) l5) - 58616, 0L);
       Words.put64(b, ((int) l5) - 58608, 0L);
       Words.put64(b, ((int) l5) - 58600, 0L);
       Words.put64(b, ((int) l5) - 58656, 0L);
       Words.put64(b, ((int) l5) - 58648, 0L);
       Words.put64(b, ((int) l5) - 58640, 0L);
       Words.put64(b, ((int) l5) - 58632, 0L);
       Words.put64(b, ((int) l5) - 58664, 0L);
       Words.put64(b, ((int) l5) - 58672, 0L);
       Words.put64(b, ((int) l5) - 58680, 0L);
       Words.put64(b, ((int) l5) - 58688, 0L);
       Words.put64(b, ((int) l5) - 58328, 0L);
       Words.put64(b, ((int) l5) - 58336, 0L);
       Words.put64(b, ((int) l5) - 58344, 0L);
       Words.put64(b, ((int) l5) - 58352, 0L);
       Words.put64(b, ((int) l5) - 58424, 0L);
       Words.put64(b, ((int) l5) - 58432, 0L);
       Words.put64(b, ((int) l5) - 58440, 0L);
       Words.put64(b, ((int) l5) - 58448, 0L);
       f86(m, l5 + 464L, l3, l4);
       if ((b[((int) l5) - 58448] & 0xff) != 1) { break L5; }
       l6 = Words.get64(b, ((int) l5) - 58424);
       l8 = Words.get64(b, ((int) l5) - 58432);
       Core1.f24(m, l5 + 184L, Words.get32(b, ((int) l5) - 58440));
       if ((b[((int) l5) - 58728] & 0xff) != 1) { break L5; }
       l11 = 1L;
       L8: {
        L9: while (true) {
         l10 = l11;
         f86(m, l5 + 464L, l7 = l8, l9 = l6);
         if ((b[((int) l5) - 58448] & 0xff) != 1) { break L8; }
         l6 = Words.get64(b, ((int) l5) - 58424);
         l8 = Words.get64(b, ((int) l5) - 58432);
         Core1.f24(m, l5 + 176L, Words.get32(b, ((int) l5) - 58440));
         l11 = l10 + 1L;
         if ((b[((int) l5) - 58736] & 0xff) == 1) { continue L9; }
         break L9;
        }
       }
       if (l10 == 0L) { break L5; }
       L10: {
        L11: {
         L12: {
          if (l10 + Long.MIN_VALUE >= -9223372036854775804L) { break L12; }
          Words.put64(b, ((int) l5) - 58424, 0L);
          Words.put64(b, ((int) l5) - 58432, 0L);
          Words.put64(b, ((int) l5) - 58440, 0L);
          Words.put64(b, ((int) l5) - 58448, 0L);
          f86(m, l5 + 464L, l3, l4);
          if ((b[((int) l5) - 58448] & 0xff) != 1) { break L11; }
          Core1.f24(m, l5 + 168L, Words.get32(b, ((int) l5) - 58440));
          if (((((b[((int) l5) - 58744] & 0xff) != 1) | (((b[((int) l5) - 58743] & 0xff) & 255) != 0)) ? 1 : 0) == 1) { break L11; }
         }
         f86(m, l5 + 560L, l7, l9);
         if ((b[((int) l5) - 58352] & 0xff) != 1) { break L10; }
         L13: {
          if ((l24 = Words.get32(b, ((int) l5) - 58344)) == 65292) { break L13; }
          if (l24 != 44) { break L10; }
         }
         l6 = Words.get64(b, ((int) l5) - 58336);
         l8 = Words.get64(b, ((int) l5) - 58328);
         Words.put64(b, ((int) l5) - 58424, 0L);
         Words.put64(b, ((int) l5) - 58432, 0L);
         Words.put64(b, ((int) l5) - 58440, 0L);
         Words.put64(b, ((int) l5) - 58448, 0L);
         f86(m, l5 + 464L, l6, l8);
         if ((b[((int) l5) - 58448] & 0xff) != 1) { break L5; }
         Core1.f24(m, l5 + 160L, Words.get32(b, ((int) l5) - 58440));
         if ((b[((int) l5) - 58752] & 0xff) != 1) { break L5; }
         L14: while (true) {
          f86(m, l5 + 464L, Words.get64(b, ((int) l5) - 58432), Words.get64(b, ((int) l5) - 58424));
          if ((b[((int) l5) - 58448] & 0xff) != 1) { break L5; }
          Core1.f24(m, l5 + 152L, Words.get32(b, ((int) l5) - 58440));
          if ((b[((int) l5) - 58760] & 0xff) == 1) { continue L14; }
          break L5;
         }
        }
        L15: while (true) {
         f86(m, l5 + 560L, l7, l9);
         if ((b[((int) l5) - 58352] & 0xff) != 1) { break L10; }
         L16: {
          if ((l24 = Words.get32(b, ((int) l5) - 58344)) == 65292) { break L16; }
          if (l24 != 44) { break L10; }
         }
         l6 = Words.get64(b, ((int) l5) - 58336);
         l8 = Words.get64(b, ((int) l5) - 58328);
         Words.put64(b, ((int) l5) - 58424, 0L);
         Words.put64(b, ((int) l5) - 58432, 0L);
         Words.put64(b, ((int) l5) - 58440, 0L);
         Words.put64(b, ((int) l5) - 58448, 0L);
         f86(m, l5 + 464L, l6, l8);
         if ((b[((int) l5) - 58448] & 0xff) != 1) { break L5; }
         Core1.f24(m, l5 + 144L, Words.get32(b, ((int) l5) - 58440));
         if ((b[((int) l5) - 58768] & 0xff) != 1) { break L5; }
         l6 = 2L;
         L17: {
          L18: while (true) {
           l8 = l6;
           f86(m, l5 + 464L, l7 = Words.get64(b, ((int) l5) - 58432), l9 = Words.get64(b, ((int) l5) - 58424));
           if ((b[((int) l5) - 58448] & 0xff) != 1) { break L17; }
           Core1.f24(m, l5 + 136L, Words.get32(b, ((int) l5) - 58440));
           l6 = l8 + -1L;
           if ((b[((int) l5) - 58776] & 0xff) == 1) { continue L18; }
           break L18;
          }
         }
         if (l8 == 0L) { continue L15; }
         break L5;
        }
       }
       l10 = 0L;
       Words.put64(b, ((int) l5) - 58328, 0L);
       Words.put64(b, ((int) l5) - 58336, 0L);
       Words.put64(b, ((int) l5) - 58344, 0L);
       Words.put64(b, ((int) l5) - 58352, 0L);
       f86(m, l5 + 560L, l7, l9);
       L19: {
        if ((b[((int) l5) - 58352] & 0xff) != 1) { break L19; }
        L20: {
         L21: {
          if ((l24 = Words.get32(b, ((int) l5) - 58344)) == 65294) { break L21; }
          if (l24 != 46) { break L20; }
         }
         l6 = Words.get64(b, ((int) l5) - 58336);
         l8 = Words.get64(b, ((int) l5) - 58328);
         Words.put64(b, ((int) l5) - 58424, 0L);
         Words.put64(b, ((int) l5) - 58432, 0L);
         Words.put64(b, ((int) l5) - 58440, 0L);
         Words.put64(b, ((int) l5) - 58448, 0L);
         f86(m, l5 + 464L, l6, l8);
         if ((b[((int) l5) - 58448] & 0xff) != 1) { break L5; }
         l6 = Words.get64(b, ((int) l5) - 58424);
         l8 = Words.get64(b, ((int) l5) - 58432);
         Core1.f24(m, l5 + 128L, Words.get32(b, ((int) l5) - 58440));
         if ((b[((int) l5) - 58784] & 0xff) != 1) { break L5; }
         l7 = 1L;
         L22: {
          L23: while (true) {
           l10 = l7;
           f86(m, l5 + 464L, l11 = l8, l9 = l6);
           if ((b[((int) l5) - 58448] & 0xff) != 1) { break L22; }
           l6 = Words.get64(b, ((int) l5) - 58424);
           l8 = Words.get64(b, ((int) l5) - 58432);
           Core1.f24(m, l5 + 120L, Words.get32(b, ((int) l5) - 58440));
           l7 = l10 + 1L;
           if ((b[((int) l5) - 58792] & 0xff) == 1) { continue L23; }
           break L23;
          }
         }
         if (l10 == 0L) { break L5; }
         if (f94(m, l11, l9) != 0) { break L19; }
         break L5;
        }
        l10 = 0L;
        if (f94(m, l7, l9) == 0) { break L5; }
       }
       l8 = 0L;
       l24 = 0;
       f95(m, l5 + 368L, l1, 0, 0L, 0L, l3, l4);
       if ((b[((int) l5) - 58544] & 0xff) != 1) { break L4; }
       l6 = 0L;
       l7 = Words.get64(b, ((int) l5) - 58520);
       l8 = Words.get64(b, ((int) l5) - 58528);
       break L2;
      }
      throw State.trap();
     }
     Words.put64(b, ((int) l5) - 58488, 0L);
     Words.put64(b, ((int) l5) - 58496, 0L);
     Words.put64(b, ((int) l5) - 58504, 0L);
     Words.put64(b, ((int) l5) - 58512, 0L);
     m.fill((int) (l5 + 464L), 0, (int) 96L);
     Words.put64(b, ((int) l5) - 58264, 0L);
     Words.put64(b, ((int) l5) - 58272, 0L);
     Words.put64(b, ((int) l5) - 58280, 0L);
     Words.put64(b, ((int) l5) - 58288, 0L);
     Words.put64(b, ((int) l5) - 58352, 0L);
     Words.put64(b, ((int) l5) - 58344, 0L);
     Words.put64(b, ((int) l5) - 58336, 0L);
     Words.put64(b, ((int) l5) - 58328, 0L);
     Words.put64(b, ((int) l5) - 58320, 0L);
     Words.put64(b, ((int) l5) - 58312, 0L);
     Words.put64(b, ((int) l5) - 58304, 0L);
     Words.put64(b, ((int) l5) - 58296, 0L);
     f96(m, l5 + 464L, l3, l4);
     final int x68 = f92_1(m, l1, l5, l6, l7, l8, l9, l10, l11, l12, l13, l14, l15, l16, l17, l18, l19, l20, l21, l22, l23, l24, l25, l26);
     l6 = m.kept[0];
     l7 = m.kept[1];
     l8 = m.kept[2];
     l9 = m.kept[3];
     l10 = m.kept[4];
     l11 = m.kept[5];
     l12 = m.kept[6];
     l13 = m.kept[7];
     l14 = m.kept[8];
     l15 = m.kept[9];
     l16 = m.kept[10];
     l17 = m.kept[11];
     l18 = m.kept[12];
     l19 = m.kept[13];
     l20 = m.kept[14];
     l21 = m.kept[15];
     l22 = m.kept[16];
     l23 = m.kept[17];
     l24 = (int) m.kept[18];
     l25 = (int) m.kept[19];
     l26 = (int) m.kept[20];
     switch (x68) {
     case 1: break L3;
     }
     f98(m, l5 + 320L, l3, l4);
     L69: {
      if ((b[((int) l5) - 58592] & 0xff) != 1) { break L69; }
      l10 = Words.get64(b, ((int) l5) - 58552);
      l6 = Words.get64(b, ((int) l5) - 58560);
      l7 = Words.get64(b, ((int) l5) - 58568);
      f88(m, l5 + 288L, l1, l2, Words.get64(b, ((int) l5) - 58584), Words.get64(b, ((int) l5) - 58576));
      l8 = Words.get64(b, ((int) l5) - 58608);
      L70: {
       if ((b[((int) l5) - 58624] & 0xff) != 0) { break L70; }
       f95(m, l5 + 256L, l1, 1, l8, Words.get64(b, ((int) l5) - 58600), l7, l6);
       L71: {
        if ((b[((int) l5) - 58656] & 0xff) == 1) { break L71; }
        l8 = 0L;
        break L4;
       }
       l24 = 0;
       l6 = 0L;
       l7 = Words.get64(b, ((int) l5) - 58632);
       l8 = Words.get64(b, ((int) l5) - 58640);
       break L2;
      }
      l7 = 0L;
      l6 = 1L;
      l24 = b[((int) l5) - 58616] & 0xff;
      break L3;
     }
     l6 = 0L;
     Words.put64(b, ((int) l5) - 58448, 0L);
     Words.put64(b, ((int) l5) - 58440, 0L);
     Words.put64(b, ((int) l5) - 58432, 0L);
     Words.put64(b, ((int) l5) - 58424, 0L);
     Words.put64(b, ((int) l5) - 58352, 0L);
     Words.put64(b, ((int) l5) - 58344, 0L);
     Words.put64(b, ((int) l5) - 58336, 0L);
     Words.put64(b, ((int) l5) - 58328, 0L);
     f86(m, l5 + 464L, l3, l4);
     L72: {
      if ((b[((int) l5) - 58448] & 0xff) != 1) { break L72; }
      l7 = Words.get64(b, ((int) l5) - 58424);
      l9 = Words.get64(b, ((int) l5) - 58432);
      L73: {
       L74: {
        if ((l24 = Words.get32(b, ((int) l5) - 58440)) != 24319) { break L74; }
        l8 = 20L;
        break L73;
       }
       if (l24 != 21317) { break L72; }
       l8 = 30L;
      }
      f86(m, l5 + 560L, l9, l7);
      L75: {
       if ((b[((int) l5) - 58352] & 0xff) != 1) { break L75; }
       l24 = Words.get32(b, ((int) l5) - 58344);
       f86(m, l5 + 464L, Words.get64(b, ((int) l5) - 58336), Words.get64(b, ((int) l5) - 58328));
       if ((l24 + -48) + Integer.MIN_VALUE < -2147483638) { break L72; }
       if (((b[((int) l5) - 58448] & 0xff) & 255) == 1) { break L72; }
       Core2.f63(m, l5 + 8L, l24);
       if (((b[((int) l5) - 58904] & 0xff) & 1) == 0) { break L72; }
       l8 = l8 + (((b[((int) l5) - 58903] & 0xff) & 0xffffffffL) & 255L);
      }
      l6 = 0L;
      l24 = 0;
      l7 = 0L;
      break L3;
     }
     f88(m, l5 + 224L, l1, l2, l3, l4);
     l8 = Words.get64(b, ((int) l5) - 58672);
     L76: {
      if ((b[((int) l5) - 58688] & 0xff) != 0) { break L76; }
      l24 = 0;
      l7 = Words.get64(b, ((int) l5) - 58664);
      break L3;
     }
     l7 = 0L;
     l6 = 1L;
     l24 = b[((int) l5) - 58680] & 0xff;
     break L3;
    }
    l24 = 2;
    l6 = 1L;
    l7 = 0L;
   }
   l10 = 0L;
  }
  l9 = (l24 & 0xffffffffL) & 255L;
 }
 Words.put64(b, ((int) l0) - 58912, l6);
 Words.put64(b, ((int) (l0 + 24L)) - 58912, l7);
 Words.put64(b, ((int) (l0 + 16L)) - 58912, l8);
 Words.put64(b, ((int) (l0 + 40L)) - 58912, 0L);
 Words.put64(b, ((int) (l0 + 32L)) - 58912, l10);
 Words.put64(b, ((int) (l0 + 8L)) - 58912, l9);
 m.g0 = l5 + 656L;
}

static void f93(State m, long l0, int l1, long l2, long l3, long l4, long l5) {
 final byte[] b = m.bytes;
 long l6 = 0;
 long l7 = 0;
 long l8 = 0;
 long l9 = 0;
 m.g0 = l6 = m.g0 - 112L;
 L1: {
  if ((l6 = l6) < 16L) { break L1; }
  Words.put64(b, ((int) l6) - 58808, 0L);
  Words.put64(b, ((int) l6) - 58816, 0L);
  Words.put64(b, ((int) l6) - 58824, 0L);
  Words.put64(b, ((int) l6) - 58832, 0L);
  f86(m, l6 + 80L, l4, l5);
  L2: {
   L3: {
    L4: {
     if ((b[((int) l6) - 58832] & 0xff) != 1) { break L4; }
     l7 = (((l1 & 0xffffffffL) & 255L) << 5L) + 68960L;
     L5: while (true) {
      l5 = Words.get64(b, ((int) l6) - 58808);
      l4 = Words.get64(b, ((int) l6) - 58816);
      Core2.f61(m, l6 + 72L, Words.get32(b, ((int) l6) - 58824));
      L6: {
       if ((b[((int) l6) - 58840] & 0xff) != 1) { break L6; }
       if ((l8 = Words.get16(b, ((int) (l7 + ((((b[((int) l6) - 58839] & 0xff) << 1) & 0xffffffffL) & 254L))) - 58912) & 0xffffL) + Long.MIN_VALUE > -9223372036854775770L) { break L3; }
       Core1.f3(m, l6 + 16L, l9 = Words.get64(b, ((int) ((l8 = l8 << 4L) + 68336L)) - 58912), 0L, l2, 0L);
       Core1.f3(m, l6, l8 = Words.get64(b, ((int) (l8 + 68344L)) - 58912), 0L, l2, 0L);
       Core1.f3(m, l6 + 48L, l9, 0L, l3, 0L);
       Core1.f3(m, l6 + 32L, l8, 0L, l3, 0L);
       if (!((((Words.get64(b, ((int) l6) - 58856) + (((l3 = (l2 = (l8 = Words.get64(b, ((int) l6) - 58888)) + Words.get64(b, ((int) l6) - 58912)) + Words.get64(b, ((int) l6) - 58864)) + Long.MIN_VALUE < l2 + Long.MIN_VALUE) ? 1L : 0L)) | (l8 = (l2 = Words.get64(b, ((int) l6) - 58904) + ((l2 + Long.MIN_VALUE < l8 + Long.MIN_VALUE) ? 1L : 0L)) + Words.get64(b, ((int) l6) - 58880))) | (Words.get64(b, ((int) l6) - 58872) + ((l8 + Long.MIN_VALUE < l2 + Long.MIN_VALUE) ? 1L : 0L))) == 0L)) { break L3; }
       l2 = Words.get64(b, ((int) l6) - 58896);
      }
      f86(m, l6 + 80L, l4, l5);
      if ((b[((int) l6) - 58832] & 0xff) == 1) { continue L5; }
      break L5;
     }
    }
    Words.put64(b, ((int) l0) - 58904, 0L);
    Words.put64(b, ((int) l0) - 58912, 1L);
    Words.put64(b, ((int) (l0 + 24L)) - 58912, l3);
    Words.put64(b, ((int) (l0 + 16L)) - 58912, l2);
    break L2;
   }
   Words.put64(b, ((int) l0) - 58888, 0L);
   Words.put64(b, ((int) l0) - 58896, 0L);
   Words.put64(b, ((int) l0) - 58904, 0L);
   Words.put64(b, ((int) l0) - 58912, 0L);
  }
  m.g0 = l6 + 112L;
  return;
 }
 throw State.trap();
}

static int f94(State m, long l0, long l1) {
 final byte[] b = m.bytes;
 long l2 = 0;
 long l3 = 0;
 long l4 = 0;
 int l5 = 0;
 int l6 = 0;
 int l7 = 0;
 int l8 = 0;
 m.g0 = l2 = m.g0 - 96L;
 L1: {
  if ((l2 = l2) < 16L) { break L1; }
  Words.put64(b, ((int) l2) - 58856, 0L);
  Words.put64(b, ((int) l2) - 58864, 0L);
  Words.put64(b, ((int) l2) - 58872, 0L);
  Words.put64(b, ((int) l2) - 58880, 0L);
  f86(m, l2 + 32L, l0, l1);
  l5 = 1;
  L2: {
   if ((b[((int) l2) - 58880] & 0xff) != 1) { break L2; }
   l3 = Words.get64(b, ((int) l2) - 58856);
   l4 = Words.get64(b, ((int) l2) - 58864);
   Core2.f61(m, l2 + 24L, Words.get32(b, ((int) l2) - 58872));
   l6 = 1;
   L3: {
    if ((b[((int) l2) - 58888] & 0xff) != 1) { break L3; }
    if (((b[((int) l2) - 58887] & 0xff) & 255) != 0) { break L3; }
    Words.put64(b, ((int) l2) - 58824, 0L);
    Words.put64(b, ((int) l2) - 58832, 0L);
    Words.put64(b, ((int) l2) - 58840, 0L);
    Words.put64(b, ((int) l2) - 58848, 0L);
    f86(m, l2 + 64L, l4, l3);
    L4: {
     if ((b[((int) l2) - 58848] & 0xff) == 1) { break L4; }
     l5 = 0;
     break L2;
    }
    Core2.f61(m, l2 + 8L, Words.get32(b, ((int) l2) - 58840));
    l5 = 0;
    if ((b[((int) l2) - 58904] & 0xff) != 1) { break L2; }
    if (((b[((int) l2) - 58903] & 0xff) & 255) + Integer.MIN_VALUE < -2147483644) { break L2; }
    Words.put64(b, ((int) l2) - 58824, 0L);
    Words.put64(b, ((int) l2) - 58832, 0L);
    Words.put64(b, ((int) l2) - 58840, 0L);
    Words.put64(b, ((int) l2) - 58848, 0L);
    l6 = 1;
    L5: while (true) {
     f86(m, l2 + 64L, l4, l3);
     if ((l5 = ((b[((int) l2) - 58848] & 0xff) != 1) ? 1 : 0) != 0) { break L2; }
     l3 = Words.get64(b, ((int) l2) - 58824);
     l4 = Words.get64(b, ((int) l2) - 58832);
     Core2.f61(m, l2, Words.get32(b, ((int) l2) - 58840));
     if ((b[((int) l2) - 58912] & 0xff) != 1) { break L2; }
     l7 = l6 & 255;
     l6 = l8 = b[((int) l2) - 58911] & 0xff;
     if (l7 + Integer.MIN_VALUE < (l8 & 255) + Integer.MIN_VALUE) { continue L5; }
     break L2;
    }
   }
   Words.put64(b, ((int) l2) - 58824, 0L);
   Words.put64(b, ((int) l2) - 58832, 0L);
   Words.put64(b, ((int) l2) - 58840, 0L);
   Words.put64(b, ((int) l2) - 58848, 0L);
   L6: while (true) {
    f86(m, l2 + 64L, l0, l1);
    if ((l5 = ((b[((int) l2) - 58848] & 0xff) != 1) ? 1 : 0) != 0) { break L2; }
    l1 = Words.get64(b, ((int) l2) - 58824);
    l0 = Words.get64(b, ((int) l2) - 58832);
    Core2.f61(m, l2 + 16L, Words.get32(b, ((int) l2) - 58840));
    if ((b[((int) l2) - 58896] & 0xff) != 1) { break L2; }
    l7 = l6 & 255;
    l6 = l8 = b[((int) l2) - 58895] & 0xff;
    if (l7 + Integer.MIN_VALUE < (l8 & 255) + Integer.MIN_VALUE) { continue L6; }
    break L6;
   }
  }
  m.g0 = l2 + 96L;
  final int t7 = l5;
  return t7;
 }
 throw State.trap();
}

static void f95(State m, long l0, int l1, int l2, long l3, long l4, long l5, long l6) {
 final byte[] b = m.bytes;
 long l7 = 0;
 long l8 = 0;
 long l9 = 0;
 long l10 = 0;
 m.g0 = l7 = m.g0 - 160L;
 L1: {
  L2: {
   if ((l7 = l7) < 16L) { break L2; }
   Words.put64(b, ((int) l7) - 58792, 0L);
   Words.put64(b, ((int) l7) - 58800, 0L);
   Words.put64(b, ((int) l7) - 58808, 0L);
   Words.put64(b, ((int) l7) - 58816, 0L);
   Words.put64(b, ((int) l7) - 58760, 0L);
   Words.put64(b, ((int) l7) - 58768, 0L);
   Words.put64(b, ((int) l7) - 58776, 0L);
   Words.put64(b, ((int) l7) - 58784, 0L);
   f86(m, l7 + 128L, l5, l6);
   L3: {
    L4: {
     if ((b[((int) l7) - 58784] & 0xff) != 1) { break L4; }
     L5: {
      if ((l2 & 1) == 0) { break L5; }
      L6: while (true) {
       l8 = Words.get64(b, ((int) l7) - 58760);
       l9 = Words.get64(b, ((int) l7) - 58768);
       L7: {
        if (((l2 = Words.get32(b, ((int) l7) - 58776)) + -48) + Integer.MIN_VALUE < -2147483638) { break L7; }
        Core2.f63(m, l7 + 40L, l2);
        if ((b[((int) l7) - 58872] & 0xff) != 1) { break L7; }
        l2 = b[((int) l7) - 58871] & 0xff;
        Core1.f3(m, l7, l3, 0L, 10L, 0L);
        Core1.f3(m, l7 + 16L, l4, 0L, 10L, 0L);
        if ((Words.get64(b, ((int) l7) - 58888) + (((l4 = (l3 = Words.get64(b, ((int) l7) - 58904)) + Words.get64(b, ((int) l7) - 58896)) + Long.MIN_VALUE < l3 + Long.MIN_VALUE) ? 1L : 0L)) != 0L) { break L3; }
        final int t8 = ((l10 = Words.get64(b, ((int) l7) - 58912) & -2L) + Long.MIN_VALUE > ((l3 = (l2 & 0xffffffffL) & 255L) ^ -1L) + Long.MIN_VALUE) ? 1 : 0;
        final int t9 = (l4 == -1L) ? 1 : 0;
        if ((t9 != 0 ? t8 : 0) != 0) { break L3; }
        l4 = l4 + (((l3 = l10 + l3) + Long.MIN_VALUE < l10 + Long.MIN_VALUE) ? 1L : 0L);
       }
       f86(m, l7 + 128L, l9, l8);
       if ((b[((int) l7) - 58784] & 0xff) == 1) { continue L6; }
       break L4;
      }
     }
     L10: while (true) {
      l8 = Words.get64(b, ((int) l7) - 58760);
      l9 = Words.get64(b, ((int) l7) - 58768);
      Core1.f24(m, l7 + 88L, Words.get32(b, ((int) l7) - 58776));
      L11: {
       if ((b[((int) l7) - 58824] & 0xff) != 1) { break L11; }
       l2 = b[((int) l7) - 58823] & 0xff;
       Core1.f3(m, l7 + 48L, l3, 0L, 10L, 0L);
       Core1.f3(m, l7 + 64L, l4, 0L, 10L, 0L);
       if ((Words.get64(b, ((int) l7) - 58840) + (((l4 = (l3 = Words.get64(b, ((int) l7) - 58856)) + Words.get64(b, ((int) l7) - 58848)) + Long.MIN_VALUE < l3 + Long.MIN_VALUE) ? 1L : 0L)) != 0L) { break L3; }
       final int t12 = ((l10 = Words.get64(b, ((int) l7) - 58864) & -2L) + Long.MIN_VALUE > ((l3 = (l2 & 0xffffffffL) & 255L) ^ -1L) + Long.MIN_VALUE) ? 1 : 0;
       final int t13 = (l4 == -1L) ? 1 : 0;
       if ((t13 != 0 ? t12 : 0) != 0) { break L3; }
       l4 = l4 + (((l3 = l10 + l3) + Long.MIN_VALUE < l10 + Long.MIN_VALUE) ? 1L : 0L);
      }
      f86(m, l7 + 128L, l9, l8);
      if ((b[((int) l7) - 58784] & 0xff) == 1) { continue L10; }
      break L10;
     }
    }
    f93(m, l7 + 96L, l1, l3, l4, l5, l6);
    Words.put64(b, ((int) l0) - 58904, 0L);
    Words.put64(b, ((int) l0) - 58912, b[((int) l7) - 58816] & 0xffL);
    Words.put64(b, ((int) (l0 + 16L)) - 58912, Words.get64(b, ((int) l7) - 58800));
    Words.put64(b, ((int) (l0 + 24L)) - 58912, Words.get64(b, ((int) l7) - 58792));
    break L1;
   }
   Words.put64(b, ((int) l0) - 58888, 0L);
   Words.put64(b, ((int) l0) - 58896, 0L);
   Words.put64(b, ((int) l0) - 58904, 0L);
   Words.put64(b, ((int) l0) - 58912, 0L);
   break L1;
  }
  throw State.trap();
 }
 m.g0 = l7 + 160L;
}

static void f96(State m, long l0, long l1, long l2) {
 final byte[] b = m.bytes;
 long l3 = 0;
 long l4 = 0;
 long l5 = 0;
 long l6 = 0;
 long l7 = 0;
 long l8 = 0;
 long l9 = 0;
 long l10 = 0;
 long l11 = 0;
 long l12 = 0;
 int l13 = 0;
 int l14 = 0;
 int l15 = 0;
 m.g0 = l3 = m.g0 - 112L;
 L1: {
  if ((l3 = l3) < 16L) { break L1; }
  Words.put32(b, ((int) l3) - 58837, 0);
  Words.put32(b, ((int) l3) - 58840, 0);
  l4 = 0L;
  Words.put64(b, ((int) l3) - 58808, 0L);
  Words.put64(b, ((int) l3) - 58816, 0L);
  Words.put64(b, ((int) l3) - 58824, 0L);
  Words.put64(b, ((int) l3) - 58832, 0L);
  l5 = l1;
  l6 = l2;
  l7 = 0L;
  L2: {
   L3: {
    L4: while (true) {
     f86(m, l3 + 80L, l5, l6);
     if ((b[((int) l3) - 58832] & 0xff) != 1) { break L3; }
     l6 = Words.get64(b, ((int) l3) - 58808);
     l5 = Words.get64(b, ((int) l3) - 58816);
     Core1.f24(m, l3 + 64L, Words.get32(b, ((int) l3) - 58824));
     if ((b[((int) l3) - 58848] & 0xff) != 1) { break L3; }
     l13 = b[((int) l3) - 58847] & 0xff;
     Core1.f3(m, l3, l7, 0L, 10L, 0L);
     Core1.f3(m, l3 + 16L, l4, 0L, 10L, 0L);
     L5: {
      if ((Words.get64(b, ((int) l3) - 58888) + (((l9 = (l8 = Words.get64(b, ((int) l3) - 58904)) + Words.get64(b, ((int) l3) - 58896)) + Long.MIN_VALUE < l8 + Long.MIN_VALUE) ? 1L : 0L)) != 0L) { break L5; }
      l4 = l9 + (((l7 = (l8 = Words.get64(b, ((int) l3) - 58912) & -2L) + (l10 = (l13 & 0xffffffffL) & 255L)) + Long.MIN_VALUE < l8 + Long.MIN_VALUE) ? 1L : 0L);
      final int t6 = (l8 + Long.MIN_VALUE > (l10 ^ -1L) + Long.MIN_VALUE) ? 1 : 0;
      final int t7 = (l9 == -1L) ? 1 : 0;
      if ((t7 != 0 ? t6 : 0) == 0) { continue L4; }
     }
     break L4;
    }
    m.fill((int) l0, 0, (int) 96L);
    break L2;
   }
   Words.put64(b, ((int) l3) - 58808, 0L);
   Words.put64(b, ((int) l3) - 58816, 0L);
   Words.put64(b, ((int) l3) - 58824, 0L);
   Words.put64(b, ((int) l3) - 58832, 0L);
   f86(m, l3 + 80L, l1, l2);
   l10 = 0L;
   l11 = l1;
   l12 = l2;
   L8: {
    if ((b[((int) l3) - 58832] & 0xff) != 1) { break L8; }
    l9 = Words.get64(b, ((int) l3) - 58808);
    l8 = Words.get64(b, ((int) l3) - 58816);
    Core1.f24(m, l3 + 56L, Words.get32(b, ((int) l3) - 58824));
    l10 = 0L;
    l11 = l1;
    l12 = l2;
    if ((b[((int) l3) - 58856] & 0xff) != 1) { break L8; }
    l5 = 1L;
    L9: while (true) {
     l10 = l5;
     f86(m, l3 + 80L, l11 = l8, l12 = l9);
     if ((b[((int) l3) - 58832] & 0xff) != 1) { break L8; }
     l9 = Words.get64(b, ((int) l3) - 58808);
     l8 = Words.get64(b, ((int) l3) - 58816);
     Core1.f24(m, l3 + 48L, Words.get32(b, ((int) l3) - 58824));
     l5 = l10 + 1L;
     if ((b[((int) l3) - 58864] & 0xff) == 1) { continue L9; }
     break L9;
    }
   }
   Words.put64(b, ((int) l3) - 58808, 0L);
   Words.put64(b, ((int) l3) - 58816, 0L);
   Words.put64(b, ((int) l3) - 58824, 0L);
   Words.put64(b, ((int) l3) - 58832, 0L);
   l13 = 1;
   l9 = l11;
   l8 = l12;
   L10: {
    L11: while (true) {
     f86(m, l3 + 80L, l6 = l9, l5 = l8);
     if ((b[((int) l3) - 58832] & 0xff) != 1) { break L10; }
     l8 = Words.get64(b, ((int) l3) - 58808);
     l9 = Words.get64(b, ((int) l3) - 58816);
     Core2.f61(m, l3 + 40L, Words.get32(b, ((int) l3) - 58824));
     if ((b[((int) l3) - 58872] & 0xff) != 1) { break L10; }
     l14 = l13 & 255;
     l13 = l15 = b[((int) l3) - 58871] & 0xff;
     if (l14 + Integer.MIN_VALUE < (l15 & 255) + Integer.MIN_VALUE) { continue L11; }
     break L11;
    }
   }
   Words.put64(b, ((int) l3) - 58808, 0L);
   Words.put64(b, ((int) l3) - 58816, 0L);
   Words.put64(b, ((int) l3) - 58824, 0L);
   Words.put64(b, ((int) l3) - 58832, 0L);
   f86(m, l3 + 80L, l1, l2);
   l13 = 0;
   L12: {
    if ((b[((int) l3) - 58832] & 0xff) != 1) { break L12; }
    Core1.f24(m, l3 + 32L, Words.get32(b, ((int) l3) - 58824));
    l13 = (((b[((int) l3) - 58880] & 0xff) == 1) & (((b[((int) l3) - 58879] & 0xff) & 255) == 0)) ? 1 : 0;
   }
   Words.put64(b, ((int) l0) - 58904, 0L);
   Words.put64(b, ((int) l0) - 58912, 1L);
   Words.put64(b, ((int) (l0 + 40L)) - 58912, l4);
   Words.put64(b, ((int) (l0 + 32L)) - 58912, l7);
   b[((int) (l0 + 48L)) - 58912] = (byte) l13;
   Words.put64(b, ((int) (l0 + 24L)) - 58912, 0L);
   Words.put64(b, ((int) (l0 + 16L)) - 58912, l10);
   Words.put32(b, ((int) (l0 + 49L)) - 58912, Words.get32(b, ((int) l3) - 58840));
   Words.put32(b, ((int) (l0 + 52L)) - 58912, Words.get32(b, ((int) l3) - 58837));
   Words.put64(b, ((int) (l0 + 88L)) - 58912, 0L);
   Words.put64(b, ((int) (l0 + 80L)) - 58912, l5);
   Words.put64(b, ((int) (l0 + 72L)) - 58912, l6);
   Words.put64(b, ((int) (l0 + 64L)) - 58912, l12 - l5);
   Words.put64(b, ((int) (l0 + 56L)) - 58912, l11);
  }
  m.g0 = l3 + 112L;
  return;
 }
 throw State.trap();
}

static void f97(State m, long l0, int l1, long l2, long l3, long l4, long l5, long l6, long l7) {
 final byte[] b = m.bytes;
 long l8 = 0;
 long l9 = 0;
 long l10 = 0;
 m.g0 = l8 = m.g0 - 96L;
 L1: {
  L2: {
   if ((l8 = l8) < 16L) { break L2; }
   Words.put64(b, ((int) l8) - 58888, 0L);
   Words.put64(b, ((int) l8) - 58896, 0L);
   Words.put64(b, ((int) l8) - 58904, 0L);
   Words.put64(b, ((int) l8) - 58912, 0L);
   f93(m, l8, l1, l4, l5, l6, l7);
   L3: {
    L4: {
     L5: {
      if ((b[((int) l8) - 58912] & 0xff) != 1) { break L5; }
      l4 = Words.get64(b, ((int) l8) - 58888);
      l5 = Words.get64(b, ((int) l8) - 58896);
      f93(m, l8, l1, 1L, 0L, l6, l7);
      if ((b[((int) l8) - 58912] & 0xff) != 1) { break L4; }
      final int t6 = (l2 + Long.MIN_VALUE > (l5 ^ -1L) + Long.MIN_VALUE) ? 1 : 0;
      final int t7 = (l3 + Long.MIN_VALUE > (l9 = l4 ^ -1L) + Long.MIN_VALUE) ? 1 : 0;
      final int t8 = (l3 == l9) ? 1 : 0;
      if ((t8 != 0 ? t6 : t7) != 0) { break L3; }
      l9 = Words.get64(b, ((int) l8) - 58888);
      l10 = Words.get64(b, ((int) l8) - 58896);
      l5 = (l4 + l3) + (((l4 = l5 + l2) + Long.MIN_VALUE < l5 + Long.MIN_VALUE) ? 1L : 0L);
      Words.put64(b, ((int) l8) - 58848, 0L);
      Words.put64(b, ((int) l8) - 58840, 0L);
      Words.put64(b, ((int) l8) - 58832, 0L);
      Words.put64(b, ((int) l8) - 58824, 0L);
      Words.put64(b, ((int) l8) - 58880, 0L);
      Words.put64(b, ((int) l8) - 58872, 0L);
      Words.put64(b, ((int) l8) - 58864, 0L);
      Words.put64(b, ((int) l8) - 58856, 0L);
      f86(m, l8 + 64L, l6, l7);
      l1 = 0;
      L9: {
       if ((b[((int) l8) - 58848] & 0xff) != 1) { break L9; }
       f86(m, l8 + 32L, Words.get64(b, ((int) l8) - 58832), Words.get64(b, ((int) l8) - 58824));
       l1 = ((b[((int) l8) - 58880] & 0xff) != 1) ? 1 : 0;
      }
      Words.put64(b, ((int) (l0 + 40L)) - 58912, l9);
      Words.put64(b, ((int) (l0 + 32L)) - 58912, l10);
      Words.put64(b, ((int) (l0 + 24L)) - 58912, l5);
      Words.put64(b, ((int) (l0 + 16L)) - 58912, l4);
      Words.put64(b, ((int) l0) - 58904, 0L);
      Words.put64(b, ((int) l0) - 58912, 1L);
      Words.put64(b, ((int) (l0 + 49L)) - 58912, 0L);
      b[((int) (l0 + 48L)) - 58912] = (byte) l1;
      Words.put64(b, ((int) (l0 + 56L)) - 58912, 0L);
      break L1;
     }
     Words.put64(b, ((int) l0) - 58856, 0L);
     Words.put64(b, ((int) l0) - 58864, 0L);
     Words.put64(b, ((int) l0) - 58872, 0L);
     Words.put64(b, ((int) l0) - 58880, 0L);
     Words.put64(b, ((int) l0) - 58888, 0L);
     Words.put64(b, ((int) l0) - 58896, 0L);
     Words.put64(b, ((int) l0) - 58904, 0L);
     Words.put64(b, ((int) l0) - 58912, 0L);
     break L1;
    }
    Words.put64(b, ((int) l0) - 58856, 0L);
    Words.put64(b, ((int) l0) - 58864, 0L);
    Words.put64(b, ((int) l0) - 58872, 0L);
    Words.put64(b, ((int) l0) - 58880, 0L);
    Words.put64(b, ((int) l0) - 58888, 0L);
    Words.put64(b, ((int) l0) - 58896, 0L);
    Words.put64(b, ((int) l0) - 58904, 0L);
    Words.put64(b, ((int) l0) - 58912, 0L);
    break L1;
   }
   Words.put64(b, ((int) l0) - 58856, 0L);
   Words.put64(b, ((int) l0) - 58864, 0L);
   Words.put64(b, ((int) l0) - 58872, 0L);
   Words.put64(b, ((int) l0) - 58880, 0L);
   Words.put64(b, ((int) l0) - 58888, 0L);
   Words.put64(b, ((int) l0) - 58896, 0L);
   Words.put64(b, ((int) l0) - 58904, 0L);
   Words.put64(b, ((int) l0) - 58912, 0L);
   break L1;
  }
  throw State.trap();
 }
 m.g0 = l8 + 96L;
}

static void f98(State m, long l0, long l1, long l2) {
 final byte[] b = m.bytes;
 long l3 = 0;
 long l4 = 0;
 long l5 = 0;
 long l6 = 0;
 long l7 = 0;
 long l8 = 0;
 long l9 = 0;
 long l10 = 0;
 long l11 = 0;
 long l12 = 0;
 long l13 = 0;
 long l14 = 0;
 int l15 = 0;
 int l16 = 0;
 m.g0 = l3 = m.g0 - 176L;
 L1: {
  L2: {
   L3: {
    L4: {
     if ((l3 = l3) < 16L) { break L4; }
     Words.put64(b, ((int) l3) - 58808, 0L);
     Words.put64(b, ((int) l3) - 58816, 0L);
     Words.put64(b, ((int) l3) - 58824, 0L);
     Words.put64(b, ((int) l3) - 58832, 0L);
     Words.put64(b, ((int) l3) - 58744, 0L);
     Words.put64(b, ((int) l3) - 58752, 0L);
     Words.put64(b, ((int) l3) - 58760, 0L);
     Words.put64(b, ((int) l3) - 58768, 0L);
     l4 = l1;
     l5 = l2;
     L5: {
      L6: {
       L7: while (true) {
        f86(m, l3 + 144L, l4, l6 = l5);
        if ((b[((int) l3) - 58768] & 0xff) != 1) { break L6; }
        l5 = Words.get64(b, ((int) l3) - 58744);
        l4 = Words.get64(b, ((int) l3) - 58752);
        L8: {
         if ((l15 = Words.get32(b, ((int) l3) - 58760)) == 40670) { break L8; }
         if (l15 != 28857) { continue L7; }
        }
        break L7;
       }
       f86(m, l3 + 80L, l1, l7 = l2 - l6);
       if ((b[((int) l3) - 58832] & 0xff) == 1) { break L5; }
       Words.put64(b, ((int) l0) - 58872, 0L);
       Words.put64(b, ((int) l0) - 58880, 0L);
       Words.put64(b, ((int) l0) - 58888, 0L);
       Words.put64(b, ((int) l0) - 58896, 0L);
       Words.put64(b, ((int) l0) - 58904, 0L);
       Words.put64(b, ((int) l0) - 58912, 0L);
       break L1;
      }
      Words.put64(b, ((int) l0) - 58872, 0L);
      Words.put64(b, ((int) l0) - 58880, 0L);
      Words.put64(b, ((int) l0) - 58888, 0L);
      Words.put64(b, ((int) l0) - 58896, 0L);
      Words.put64(b, ((int) l0) - 58904, 0L);
      Words.put64(b, ((int) l0) - 58912, 0L);
      break L1;
     }
     Words.put64(b, ((int) l3) - 58744, 0L);
     Words.put64(b, ((int) l3) - 58752, 0L);
     Words.put64(b, ((int) l3) - 58760, 0L);
     Words.put64(b, ((int) l3) - 58768, 0L);
     f86(m, l3 + 144L, l4, l5);
     L9: {
      L10: {
       if ((b[((int) l3) - 58768] & 0xff) != 1) { break L10; }
       if (((l15 = Words.get32(b, ((int) l3) - 58760)) + -48) + Integer.MIN_VALUE <= -2147483639) { break L10; }
       l2 = Words.get64(b, ((int) l3) - 58752);
       l8 = Words.get64(b, ((int) l3) - 58744);
       Core2.f63(m, l3 + 72L, l15);
       l6 = 0L;
       l9 = l4;
       l10 = l5;
       L11: {
        if ((b[((int) l3) - 58840] & 0xff) != 1) { break L11; }
        l11 = 1L;
        L12: while (true) {
         l6 = l11;
         f86(m, l3 + 144L, l9 = l2, l10 = l8);
         if ((b[((int) l3) - 58768] & 0xff) != 1) { break L11; }
         if (((l15 = Words.get32(b, ((int) l3) - 58760)) + -48) + Integer.MIN_VALUE < -2147483638) { break L11; }
         l8 = Words.get64(b, ((int) l3) - 58744);
         l2 = Words.get64(b, ((int) l3) - 58752);
         Core2.f63(m, l3 + 64L, l15);
         l11 = l6 + 1L;
         if ((b[((int) l3) - 58848] & 0xff) == 1) { continue L12; }
         break L12;
        }
       }
       if (l6 == 0L) { break L10; }
       if (f94(m, l9, l10) != 0) { break L9; }
      }
      Words.put64(b, ((int) l0) - 58872, 0L);
      Words.put64(b, ((int) l0) - 58880, 0L);
      Words.put64(b, ((int) l0) - 58888, 0L);
      Words.put64(b, ((int) l0) - 58896, 0L);
      Words.put64(b, ((int) l0) - 58904, 0L);
      Words.put64(b, ((int) l0) - 58912, 0L);
      break L1;
     }
     Words.put64(b, ((int) l3) - 58744, 0L);
     Words.put64(b, ((int) l3) - 58752, 0L);
     Words.put64(b, ((int) l3) - 58760, 0L);
     Words.put64(b, ((int) l3) - 58768, 0L);
     f86(m, l3 + 144L, l4, l5);
     l2 = l4;
     l8 = l5;
     L13: {
      if ((b[((int) l3) - 58768] & 0xff) != 1) { break L13; }
      l2 = l4;
      l8 = l5;
      if (((l15 = Words.get32(b, ((int) l3) - 58760)) + -48) + Integer.MIN_VALUE < -2147483638) { break L13; }
      l11 = Words.get64(b, ((int) l3) - 58752);
      l9 = Words.get64(b, ((int) l3) - 58744);
      Core2.f63(m, l3 + 56L, l15);
      l2 = l4;
      l8 = l5;
      if ((b[((int) l3) - 58856] & 0xff) != 1) { break L13; }
      L14: while (true) {
       f86(m, l3 + 144L, l2 = l11, l8 = l9);
       if ((b[((int) l3) - 58768] & 0xff) != 1) { break L13; }
       if (((l15 = Words.get32(b, ((int) l3) - 58760)) + -48) + Integer.MIN_VALUE < -2147483638) { break L13; }
       l9 = Words.get64(b, ((int) l3) - 58744);
       l11 = Words.get64(b, ((int) l3) - 58752);
       Core2.f63(m, l3 + 48L, l15);
       if ((b[((int) l3) - 58864] & 0xff) == 1) { continue L14; }
       break L14;
      }
     }
     Words.put64(b, ((int) l3) - 58768, 0L);
     Words.put64(b, ((int) l3) - 58760, 0L);
     Words.put64(b, ((int) l3) - 58752, 0L);
     Words.put64(b, ((int) l3) - 58744, 0L);
     Words.put64(b, ((int) l3) - 58800, 0L);
     Words.put64(b, ((int) l3) - 58792, 0L);
     Words.put64(b, ((int) l3) - 58784, 0L);
     Words.put64(b, ((int) l3) - 58776, 0L);
     f91(m, l3 + 144L, l1, l7);
     L15: {
      if ((b[((int) l3) - 58768] & 0xff) != 1) { break L15; }
      l15 = Words.get32(b, ((int) l3) - 58760);
      f91(m, l3 + 112L, Words.get64(b, ((int) l3) - 58752), Words.get64(b, ((int) l3) - 58744));
      if ((b[((int) l3) - 58800] & 0xff) != 1) { break L15; }
      Core2.f61(m, l3 + 40L, Words.get32(b, ((int) l3) - 58792));
      if ((b[((int) l3) - 58872] & 0xff) != 1) { break L15; }
      if (((b[((int) l3) - 58871] & 0xff) & 255) + Integer.MIN_VALUE <= -2147483647) { break L15; }
      Core2.f63(m, l3 + 32L, l15);
      l11 = 0L;
      l9 = 0L;
      l10 = 0L;
      l12 = 0L;
      l13 = 0L;
      l14 = 0L;
      if ((b[((int) l3) - 58880] & 0xff) == 1) { break L2; }
     }
     Words.put64(b, ((int) l3) - 58776, 0L);
     Words.put64(b, ((int) l3) - 58784, 0L);
     Words.put64(b, ((int) l3) - 58792, 0L);
     Words.put64(b, ((int) l3) - 58800, 0L);
     f86(m, l3 + 112L, l2, l8);
     if ((b[((int) l3) - 58800] & 0xff) != 1) { break L3; }
     l2 = Words.get64(b, ((int) l3) - 58776);
     l8 = Words.get64(b, ((int) l3) - 58784);
     Core2.f61(m, l3 + 24L, Words.get32(b, ((int) l3) - 58792));
     l15 = b[((int) l3) - 58887] & 0xff;
     L16: {
      L17: {
       if ((l16 = b[((int) l3) - 58888] & 0xff) != 1) { break L17; }
       if ((l15 & 255) != 0) { break L17; }
       Words.put64(b, ((int) l3) - 58744, 0L);
       Words.put64(b, ((int) l3) - 58752, 0L);
       Words.put64(b, ((int) l3) - 58760, 0L);
       Words.put64(b, ((int) l3) - 58768, 0L);
       f86(m, l3 + 144L, l8, l2);
       if ((b[((int) l3) - 58768] & 0xff) != 1) { break L3; }
       Core2.f61(m, l3 + 16L, Words.get32(b, ((int) l3) - 58760));
       l15 = b[((int) l3) - 58895] & 0xff;
       l16 = b[((int) l3) - 58896] & 0xff;
       Words.put64(b, ((int) l3) - 58744, 0L);
       Words.put64(b, ((int) l3) - 58752, 0L);
       Words.put64(b, ((int) l3) - 58760, 0L);
       Words.put64(b, ((int) l3) - 58768, 0L);
       if ((l16 & 1) != 0) { break L16; }
       break L3;
      }
      Words.put64(b, ((int) l3) - 58744, 0L);
      Words.put64(b, ((int) l3) - 58752, 0L);
      Words.put64(b, ((int) l3) - 58760, 0L);
      Words.put64(b, ((int) l3) - 58768, 0L);
      if ((l16 & 1) == 0) { break L3; }
     }
     l2 = l1;
     l8 = l7;
     L18: while (true) {
      f86(m, l3 + 144L, l2, l8);
      if ((b[((int) l3) - 58768] & 0xff) != 1) { break L3; }
      l8 = Words.get64(b, ((int) l3) - 58744);
      l2 = Words.get64(b, ((int) l3) - 58752);
      Core2.f61(m, l3 + 8L, Words.get32(b, ((int) l3) - 58760));
      if ((b[((int) l3) - 58904] & 0xff) != 1) { continue L18; }
      if (((b[((int) l3) - 58903] & 0xff) & 255) + Integer.MIN_VALUE < (l15 & 255) + Integer.MIN_VALUE) { continue L18; }
      break L18;
     }
     l11 = 0L;
     l9 = 0L;
     l10 = 0L;
     l12 = 0L;
     l13 = 0L;
     l14 = 0L;
     break L2;
    }
    throw State.trap();
   }
   l13 = 1L;
   l11 = l1;
   l9 = l7;
   l10 = l4;
   l12 = l5;
   l14 = l6;
  }
  Words.put64(b, ((int) l0) - 58912, l13);
  Words.put64(b, ((int) (l0 + 40L)) - 58912, l14);
  Words.put64(b, ((int) (l0 + 32L)) - 58912, l12);
  Words.put64(b, ((int) (l0 + 24L)) - 58912, l10);
  Words.put64(b, ((int) (l0 + 16L)) - 58912, l9);
  Words.put64(b, ((int) (l0 + 8L)) - 58912, l11);
 }
 m.g0 = l3 + 176L;
}

static void f99(State m, long l0, long l1, long l2) {
 final byte[] b = m.bytes;
 long l3 = 0;
 long l4 = 0;
 long l5 = 0;
 long l6 = 0;
 long l7 = 0;
 long l8 = 0;
 int l9 = 0;
 int l10 = 0;
 int l11 = 0;
 int l12 = 0;
 int l13 = 0;
 int l14 = 0;
 int l15 = 0;
 int l16 = 0;
 int l17 = 0;
 int l18 = 0;
 int l19 = 0;
 int l20 = 0;
 int l21 = 0;
 int l22 = 0;
 m.g0 = l3 = m.g0 - 48L;
 L1: {
  L2: {
   L3: {
    L4: {
     L5: {
      if ((l3 = l3) < 16L) { break L5; }
      Words.put64(b, ((int) l3) - 58880, 0L);
      Words.put64(b, ((int) l3) - 58888, 0L);
      Words.put64(b, ((int) l3) - 58896, 0L);
      Words.put64(b, ((int) l3) - 58904, 0L);
      f86(m, l3 + 8L, l1, l2);
      L6: {
       if ((b[((int) l3) - 58904] & 0xff) != 1) { break L6; }
       l9 = 2;
       l10 = 0;
       l4 = l2;
       l5 = l1;
       l11 = 0;
       l12 = 2;
       l13 = 0;
       l14 = 2;
       L7: while (true) {
        l6 = Words.get64(b, ((int) l3) - 58880);
        l7 = Words.get64(b, ((int) l3) - 58888);
        l15 = Words.get32(b, ((int) l3) - 58896);
        b[((int) l3) - 58865] = (byte) l10;
        b[((int) l3) - 58866] = (byte) l9;
        b[((int) l3) - 58867] = (byte) l11;
        b[((int) l3) - 58868] = (byte) l12;
        b[((int) l3) - 58869] = (byte) l13;
        b[((int) l3) - 58870] = (byte) l14;
        L8: {
         L9: {
          L10: {
           L11: {
            L12: {
             if ((l17 = ((l16 = l15 + -2048) + Integer.MIN_VALUE < -2147420160) ? 1 : 0) != 0) { break L12; }
             final int t13 = l18 = l15 + -48;
             final int t14 = l18 = (l18 + Integer.MIN_VALUE < -2147483638) ? 1 : 0;
             l20 = (((l19 = t14 != 0 ? t13 : 0) & 255) == 1) ? 1 : 0;
             l18 = l18 != 0 ? 0 : 2;
             break L11;
            }
            final int t15 = b[((int) ((l8 = ((((l18 = (((l15 >>> 12) | ((l15 << 2) & 16128)) | ((l15 << 16) & 4128768)) | 8421600) & 0xffffffffL) * 953497L) >>> 22L) & 1016L) + 66857L)) - 58912] & 0xff;
            final int t16 = l18 = (Words.get32(b, State.far((int) l8, 66852)) == l18) ? 1 : 0;
            l20 = (l19 = t16 != 0 ? t15 : 0) & 255;
            L17: {
             L18: {
              L19: {
               final int t20 = b[((int) (l8 + 66856L)) - 58912] & 0xff;
               final int t21 = l18;
               if (((l18 = t21 != 0 ? t20 : 2) & 255) != 1) { break L19; }
               if (l20 != 1) { break L19; }
               L22: {
                L23: {
                 switch ((int) ((l14 & 0xffffffffL) & 255L)) {
                 case 1: break L23;
                 case 2: break L10;
                 default: break L22;
                 }
                }
                l21 = 2;
                l19 = 1;
                if ((l13 & 255) != 2) { break L19; }
                l18 = 1;
                break L9;
               }
               l19 = 1;
               if ((l13 & 255) != 0) { break L18; }
               if ((l12 & 255) != 1) { break L18; }
               if ((l11 & 255) + Integer.MIN_VALUE <= -2147483646) { break L18; }
               l21 = 0;
               l12 = 1;
               l18 = 0;
               break L9;
              }
              if ((l14 & 255) != 1) { break L18; }
              if ((l13 & 255) != 1) { break L18; }
              if ((l18 & 255) != 1) { break L18; }
              l18 = 1;
              if (((l19 + -1) & 255) + Integer.MIN_VALUE >= -2147483646) { break L17; }
              l19 = 1;
              l21 = 1;
              break L9;
             }
             if ((l14 & 255) != 0) { break L17; }
             if ((l18 & 255) != 1) { break L17; }
             if ((l13 & 255) != 0) { break L17; }
             l21 = 0;
             l19 = 1;
             l18 = 0;
             break L9;
            }
            l20 = (l20 == 1) ? 1 : 0;
            if ((l18 & 255) != 1) { break L11; }
            if ((l19 & 255) + Integer.MIN_VALUE < -2147483644) { break L11; }
            l18 = 1;
            L24: {
             L25: {
              if ((l21 = l14 & 255) != 1) { break L25; }
              if ((l13 & 255) == 0) { break L24; }
             }
             if (l21 != 0) { break L11; }
             if ((l12 & 255) != 1) { break L11; }
             if ((l13 & 255) == 0) { break L11; }
             if ((l21 = l11 & 255) + Integer.MIN_VALUE < -2147483646) { break L11; }
             if (l21 + Integer.MIN_VALUE >= (l19 & 255) + Integer.MIN_VALUE) { break L11; }
             l18 = 0;
             l19 = 1;
             l12 = 1;
             l21 = l13;
             break L9;
            }
            if ((l12 & 255) != 0) { break L10; }
            if ((l9 & 255) != 1) { break L10; }
            if ((l11 & 255) == 0) { break L10; }
            if ((l10 & 255) + Integer.MIN_VALUE < -2147483646) { break L10; }
            if ((l10 & 255) + Integer.MIN_VALUE >= (l19 & 255) + Integer.MIN_VALUE) { break L10; }
            l12 = 0;
            l19 = 1;
            l9 = 1;
            l21 = 0;
            l18 = 1;
            break L9;
           }
           if ((l14 & 255) != 1) { break L10; }
           if ((l13 & 255) + Integer.MIN_VALUE < -2147483643) { break L10; }
           L26: {
            L27: {
             L28: {
              switch ((int) ((l18 & 0xffffffffL) & 255L)) {
              case 1: break L28;
              case 2: break L10;
              default: break L27;
              }
             }
             if (l20 == 0) { break L10; }
             l18 = 1;
             if (f103(m, 1, l7, l6) != 0) { break L26; }
             break L10;
            }
            if ((l19 & 255) == 0) { break L10; }
            if (f103(m, 0, l7, l6) == 0) { break L10; }
            l18 = 1;
           }
           l19 = l17;
           l21 = l13;
           break L9;
          }
          if (f104(m, l3 + 42L, l15, l7, l6) == 0) { break L8; }
          l19 = l17;
          l21 = l13;
          l18 = l14;
         }
         l16 = 0;
         L29: {
          L30: {
           if (l19 == 0) { break L30; }
           if (Words.get32(b, State.far((int) (l8 = ((((l14 = (((l15 >>> 12) | ((l15 << 2) & 16128)) | ((l15 << 16) & 4128768)) | 8421600) & 0xffffffffL) * 953497L) >>> 22L) & 1016L), 66852)) != l14) { break L30; }
           if (((b[((int) (l8 + 66856L)) - 58912] & 0xff) & 255) != 1) { break L30; }
           if (((b[((int) (l8 + 66857L)) - 58912] & 0xff) & 255) != 1) { break L30; }
           L31: {
            L32: {
             switch ((int) ((l18 & 0xffffffffL) & 255L)) {
             case 1: break L32;
             case 2: break L30;
             default: break L31;
             }
            }
            l20 = 2;
            if ((l21 & 255) != 2) { break L30; }
            l16 = 1;
            break L29;
           }
           if ((l21 & 255) != 0) { break L30; }
           if ((l12 & 255) != 1) { break L30; }
           if ((l11 & 255) + Integer.MIN_VALUE <= -2147483646) { break L30; }
           l16 = 1;
           l20 = l11;
           break L29;
          }
          l20 = 0;
         }
         l8 = l2 - l4;
         b[((int) l3) - 58865] = (byte) l10;
         b[((int) l3) - 58866] = (byte) l9;
         b[((int) l3) - 58867] = (byte) l11;
         b[((int) l3) - 58868] = (byte) l12;
         b[((int) l3) - 58869] = (byte) l21;
         b[((int) l3) - 58870] = (byte) l18;
         L33: {
          if (l19 != 0) { break L33; }
          final int t34 = l14 = l15 + -48;
          final int t35 = l14 = (l14 + Integer.MIN_VALUE < -2147483638) ? 1 : 0;
          l13 = t35 != 0 ? t34 : 0;
          l19 = l14 != 0 ? 0 : 2;
          l18 = ((l14 = l18 & 255) == 1) ? 1 : 0;
          l17 = ((l21 & 255) == 0) ? 1 : 0;
          l22 = (l14 == 0) ? 1 : 0;
          break L3;
         }
         final int t36 = b[((int) ((l2 = ((((l14 = (((l15 >>> 12) | ((l15 << 2) & 16128)) | ((l15 << 16) & 4128768)) | 8421600) & 0xffffffffL) * 953497L) >>> 22L) & 1016L) + 66857L)) - 58912] & 0xff;
         final int t37 = l14 = (Words.get32(b, State.far((int) l2, 66852)) == l14) ? 1 : 0;
         l13 = t37 != 0 ? t36 : 0;
         L38: {
          L39: {
           final int t40 = b[((int) (l2 + 66856L)) - 58912] & 0xff;
           final int t41 = l14;
           if (((l19 = t41 != 0 ? t40 : 2) & 255) != 1) { break L39; }
           if ((l13 & 255) != 1) { break L39; }
           L42: {
            L43: {
             switch ((int) ((l18 & 0xffffffffL) & 255L)) {
             case 1: break L43;
             case 2: break L38;
             default: break L42;
             }
            }
            l13 = 1;
            if ((l21 & 255) != 2) { break L39; }
            l14 = 0;
            break L2;
           }
           l14 = 0;
           l13 = 1;
           if ((l21 & 255) != 0) { break L4; }
           if ((l12 & 255) != 1) { break L4; }
           if ((l11 & 255) + Integer.MIN_VALUE > -2147483646) { break L2; }
           break L4;
          }
          l14 = ((l17 = l18 & 255) == 1) ? 1 : 0;
          if (l17 != 1) { break L4; }
          if ((l21 & 255) != 1) { break L4; }
          if ((l19 & 255) != 1) { break L4; }
          l17 = 0;
          l19 = 1;
          l18 = 1;
          l22 = 0;
          l14 = 1;
          if (((l13 + -1) & 255) + Integer.MIN_VALUE >= -2147483646) { break L3; }
          break L2;
         }
         l17 = ((l21 & 255) == 0) ? 1 : 0;
         l18 = 0;
         l13 = 1;
         l19 = 1;
         l22 = 0;
         break L3;
        }
        L44: {
         L45: {
          if (l16 + Integer.MIN_VALUE > -2147420161) { break L45; }
          final int t46 = b[((int) ((l8 = ((((l15 = (((l15 >>> 12) | ((l15 << 2) & 16128)) | ((l15 << 16) & 4128768)) | 8421600) & 0xffffffffL) * 953497L) >>> 22L) & 1016L) + 66857L)) - 58912] & 0xff;
          final int t47 = l18 = (Words.get32(b, State.far((int) l8, 66852)) == l15) ? 1 : 0;
          l15 = t47 != 0 ? t46 : 0;
          final int t48 = b[((int) (l8 + 66856L)) - 58912] & 0xff;
          final int t49 = l18;
          l18 = t49 != 0 ? t48 : 2;
          break L44;
         }
         final int t50 = l15 = l15 + -48;
         final int t51 = l18 = (l15 + Integer.MIN_VALUE < -2147483638) ? 1 : 0;
         l15 = t51 != 0 ? t50 : 0;
         l18 = l18 != 0 ? 0 : 2;
        }
        f86(m, l3 + 8L, l7, l6);
        l4 = l6;
        l5 = l7;
        l10 = l11;
        l9 = l12;
        l11 = l13;
        l12 = l14;
        l13 = l15;
        l14 = l18;
        if ((b[((int) l3) - 58904] & 0xff) == 1) { continue L7; }
        break L7;
       }
      }
      Words.put64(b, ((int) l0) - 58872, 0L);
      Words.put64(b, ((int) l0) - 58880, 0L);
      Words.put64(b, ((int) l0) - 58888, 0L);
      Words.put64(b, ((int) l0) - 58896, 0L);
      Words.put64(b, ((int) l0) - 58904, 0L);
      Words.put64(b, ((int) l0) - 58912, 0L);
      break L1;
     }
     throw State.trap();
    }
    l17 = ((l21 & 255) == 0) ? 1 : 0;
    l22 = ((l18 = l18 & 255) == 0) ? 1 : 0;
    L52: {
     if (l18 == 0) { break L52; }
     l18 = l14;
     break L3;
    }
    L53: {
     if ((l19 & 255) == 1) { break L53; }
     l18 = l14;
     break L3;
    }
    l18 = l14;
    if ((l21 & 255) != 0) { break L3; }
    l14 = 2;
    break L2;
   }
   L54: {
    if (f104(m, l3 + 42L, l15, l7, l6) == 0) { break L54; }
    l14 = 3;
    break L2;
   }
   l14 = 5;
   if ((l19 & 255) != 1) { break L2; }
   if ((l13 & 255) + Integer.MIN_VALUE < -2147483644) { break L2; }
   L55: {
    L56: {
     if ((l18 & l17) != 0) { break L56; }
     if (((((((l12 & 255) == 1) ? 1 : 0) & l22) & (((l21 & 255) != 0) ? 1 : 0)) & ((((l15 = l11 & 255) + Integer.MIN_VALUE > -2147483647) & (l15 + Integer.MIN_VALUE < (l13 & 255) + Integer.MIN_VALUE)) ? 1 : 0)) != 0) { break L55; }
     break L2;
    }
    if (((((((l12 & 255) == 0) & ((l9 & 255) == 1)) & ((l11 & 255) != 0)) & (((l15 = l10 & 255) + Integer.MIN_VALUE > -2147483647) & (l15 + Integer.MIN_VALUE < (l13 & 255) + Integer.MIN_VALUE))) ? 1 : 0) != 1) { break L2; }
   }
   l14 = 4;
  }
  Words.put64(b, ((int) l0) - 58912, 1L);
  Words.put32(b, ((int) (l0 + 43L)) - 58912, 0);
  b[((int) (l0 + 42L)) - 58912] = (byte) l14;
  b[((int) (l0 + 41L)) - 58912] = (byte) l20;
  b[((int) (l0 + 40L)) - 58912] = (byte) l16;
  Words.put64(b, ((int) (l0 + 32L)) - 58912, l4);
  Words.put64(b, ((int) (l0 + 24L)) - 58912, l5);
  Words.put64(b, ((int) (l0 + 16L)) - 58912, l8);
  Words.put64(b, ((int) (l0 + 8L)) - 58912, l1);
  b[((int) (l0 + 47L)) - 58912] = (byte) 0;
 }
 m.g0 = l3 + 48L;
}

static void f100(State m, long l0, int l1, long l2, long l3, long l4) {
 final byte[] b = m.bytes;
 long l5 = 0;
 long l6 = 0;
 long l7 = 0;
 long l8 = 0;
 int l9 = 0;
 int l10 = 0;
 int l11 = 0;
 int l12 = 0;
 int l13 = 0;
 int l14 = 0;
 m.g0 = l5 = m.g0 - 176L;
 L1: {
  L2: {
   L3: {
    L4: {
     L5: {
      L6: {
       L7: {
        L8: {
         if ((l5 = l5) < 16L) { break L8; }
         Words.put64(b, ((int) l5) - 58872, 0L);
         Words.put64(b, ((int) l5) - 58880, 0L);
         Words.put64(b, ((int) l5) - 58888, 0L);
         Words.put64(b, ((int) l5) - 58896, 0L);
         Words.put64(b, ((int) l5) - 58744, 0L);
         Words.put64(b, ((int) l5) - 58752, 0L);
         Words.put64(b, ((int) l5) - 58760, 0L);
         Words.put64(b, ((int) l5) - 58768, 0L);
         l6 = l3;
         l7 = l4;
         L9: {
          L10: while (true) {
           f86(m, l5 + 144L, l6, l7);
           if ((b[((int) l5) - 58768] & 0xff) != 1) { break L9; }
           l7 = Words.get64(b, ((int) l5) - 58744);
           l6 = Words.get64(b, ((int) l5) - 58752);
           Core2.f63(m, l5 + 8L, Words.get32(b, ((int) l5) - 58760));
           if ((b[((int) l5) - 58904] & 0xff) == 1) { continue L10; }
           break L10;
          }
          Words.put64(b, ((int) l5) - 58800, 0L);
          Words.put64(b, ((int) l5) - 58792, 0L);
          Words.put64(b, ((int) l5) - 58784, 0L);
          Words.put64(b, ((int) l5) - 58776, 0L);
          Words.put64(b, ((int) l5) - 58832, 0L);
          Words.put64(b, ((int) l5) - 58824, 0L);
          Words.put64(b, ((int) l5) - 58816, 0L);
          Words.put64(b, ((int) l5) - 58808, 0L);
          Words.put64(b, ((int) l5) - 58864, 0L);
          Words.put64(b, ((int) l5) - 58856, 0L);
          Words.put64(b, ((int) l5) - 58848, 0L);
          Words.put64(b, ((int) l5) - 58840, 0L);
          L11: {
           if (!(l4 == 0L)) { break L11; }
           Words.put64(b, ((int) l5) - 58792, 0L);
           Words.put64(b, ((int) l5) - 58784, 0L);
           Words.put64(b, ((int) l5) - 58880, 0L);
           Words.put64(b, ((int) l5) - 58872, Words.get64(b, ((int) l5) - 58776));
           break L2;
          }
          L12: while (true) {
           L13: {
            L14: {
             if ((l9 = b[((int) l3) - 58912] & 0xff) + Integer.MIN_VALUE > -2147483616) { break L14; }
             if (((1L << (l9 & 0xffffffffL)) & 4294983168L) == 0L) { break L14; }
             l6 = 1L;
             break L13;
            }
            L15: {
             L16: {
              L17: {
               if (l9 == 194) { break L17; }
               if (l4 + Long.MIN_VALUE < -9223372036854775805L) { break L16; }
               if (((l9 + 28) & 255) + Integer.MIN_VALUE < -2147483395) { break L16; }
               l10 = b[((int) (l3 + 1L)) - 58912] & 0xff;
               l12 = (int) (byte) (l11 = b[((int) (l3 + 2L)) - 58912] & 0xff);
               if (l9 != 226) { break L15; }
               if ((l10 & 255) != 128) { break L15; }
               l6 = 3L;
               if (l12 < -117) { break L13; }
               if ((l11 + -168) + Integer.MIN_VALUE < -2147483646) { break L13; }
               if (l11 != 175) { break L7; }
               break L13;
              }
              l6 = 1L;
              l9 = b[((int) l3) - 58911] & 0xff;
              L18: {
               if (l4 != 1L) { break L18; }
               l12 = l9 & 63;
               l9 = 194;
               break L5;
              }
              l6 = 2L;
              if (l9 == 133) { break L13; }
              if (l9 == 160) { break L13; }
             }
             if (l4 + Long.MIN_VALUE >= -9223372036854775805L) { break L7; }
             l10 = b[((int) l3) - 58912] & 0xff;
             break L6;
            }
            L19: {
             L20: {
              L21: {
               L22: {
                switch (l9 + -225) {
                case 1: break L21;
                case 2: break L20;
                default: break L22;
                }
               }
               if ((l10 & 255) != 154) { break L7; }
               if (l12 != -128) { break L7; }
               break L19;
              }
              if ((l10 & 255) != 129) { break L7; }
              if (l12 == -97) { break L19; }
              break L7;
             }
             if ((l10 & 255) != 128) { break L7; }
             if (l12 != -128) { break L7; }
            }
            l6 = 3L;
           }
           l2 = l2 + 1L;
           l3 = l3 + l6;
           if (!((l4 = l4 - l6) == 0L)) { continue L12; }
           break L12;
          }
          Words.put64(b, ((int) l5) - 58792, 0L);
          Words.put64(b, ((int) l5) - 58784, 0L);
          Words.put64(b, ((int) l5) - 58880, 0L);
          Words.put64(b, ((int) l5) - 58872, Words.get64(b, ((int) l5) - 58776));
          break L2;
         }
         Core2.f39(m, l5 + 16L, l2, l3, l4);
         l10 = b[((int) l5) - 58888] & 0xff;
         l9 = b[((int) l5) - 58896] & 0xff;
         break L1;
        }
        throw State.trap();
       }
       if (((l10 = b[((int) l3) - 58912] & 0xff) & 240) != 224) { break L6; }
       l9 = (((b[((int) l3) - 58910] & 0xff) + ((b[((int) l3) - 58911] & 0xff) << 6)) + (l10 << 12)) + -925824;
       l6 = l4 + -3L;
       l3 = l3 + 3L;
       break L3;
      }
      l9 = l10 & 255;
      l7 = 1L;
      L23: {
       if (((int) (byte) l10) > -1) { break L23; }
       l12 = (b[((int) l3) - 58911] & 0xff) & 63;
       L24: {
        if ((l10 & 255) + Integer.MIN_VALUE > -2147483425) { break L24; }
        l6 = l4;
        break L5;
       }
       l11 = (b[((int) l3) - 58910] & 0xff) & 63;
       L25: {
        if ((l10 & 255) + Integer.MIN_VALUE > -2147483409) { break L25; }
        l9 = ((l12 << 6) | ((l9 << 12) & 61440)) | l11;
        l7 = 3L;
        break L23;
       }
       l9 = ((l11 << 6) | ((l12 << 12) | ((l9 << 18) & 1835008))) | ((b[((int) l3) - 58909] & 0xff) & 63);
       l7 = 4L;
      }
      l6 = l4;
      break L4;
     }
     l9 = ((l9 << 6) & 1984) | l12;
     l7 = 2L;
    }
    l6 = l6 - l7;
    l3 = l3 + l7;
   }
   Words.put64(b, ((int) l5) - 58744, 0L);
   Words.put64(b, ((int) l5) - 58752, 0L);
   Words.put64(b, ((int) l5) - 58760, 0L);
   Words.put64(b, ((int) l5) - 58768, 0L);
   L26: {
    L27: {
     L28: {
      L29: {
       L30: {
        L31: {
         if (l6 + Long.MIN_VALUE < -9223372036854775804L) { break L31; }
         if (Words.get32(b, ((int) ((l8 = ((((l10 = Words.get32(b, ((int) ((l3 + l6) + -4L)) - 58912) >>> 8) & 0xffffffffL) * 953497L) >>> 22L) & 1016L) + 66852L)) - 58912) != l10) { break L29; }
         l7 = l6 + -3L;
         l4 = l3;
         break L30;
        }
        if (l6 != 3L) { break L29; }
        if (Words.get32(b, ((int) ((l8 = ((((l10 = (Words.get16(b, ((int) l3) - 58912) & 0xffff) | ((b[((int) l3) - 58910] & 0xff) << 16)) & 0xffffffffL) * 953497L) >>> 22L) & 1016L) + 66852L)) - 58912) != l10) { break L29; }
        l4 = l3 + 3L;
        l7 = 0L;
       }
       l11 = b[((int) (l8 + 66856L)) - 58912] & 0xff;
       l13 = b[((int) (l8 + 66857L)) - 58912] & 0xff;
       break L28;
      }
      Core2.f41(m, l5 + 144L, l3, l6);
      if ((b[((int) l5) - 58768] & 0xff) != 1) { break L27; }
      l7 = Words.get64(b, ((int) l5) - 58744);
      l4 = Words.get64(b, ((int) l5) - 58752);
      l13 = b[((int) l5) - 58759] & 0xff;
      l11 = b[((int) l5) - 58760] & 0xff;
     }
     Words.put64(b, ((int) l5) - 58744, 0L);
     Words.put64(b, ((int) l5) - 58752, 0L);
     Words.put64(b, ((int) l5) - 58760, 0L);
     Words.put64(b, ((int) l5) - 58768, 0L);
     L32: {
      L33: {
       L34: {
        if (l7 + Long.MIN_VALUE < -9223372036854775804L) { break L34; }
        if (Words.get32(b, ((int) ((l8 = ((((l10 = Words.get32(b, ((int) ((l4 + l7) + -4L)) - 58912) >>> 8) & 0xffffffffL) * 953497L) >>> 22L) & 1016L) + 66852L)) - 58912) != l10) { break L33; }
        l12 = b[((int) (l8 + 66856L)) - 58912] & 0xff;
        l14 = b[((int) (l8 + 66857L)) - 58912] & 0xff;
        l10 = 1;
        break L32;
       }
       if (l7 != 3L) { break L33; }
       if (Words.get32(b, ((int) ((l8 = ((((l10 = (Words.get16(b, ((int) l4) - 58912) & 0xffff) | ((b[((int) l4) - 58910] & 0xff) << 16)) & 0xffffffffL) * 953497L) >>> 22L) & 1016L) + 66852L)) - 58912) != l10) { break L33; }
       l12 = b[((int) (l8 + 66856L)) - 58912] & 0xff;
       l14 = b[((int) (l8 + 66857L)) - 58912] & 0xff;
       l10 = 1;
       break L32;
      }
      Core2.f41(m, l5 + 144L, l4, l7);
      l10 = ((b[((int) l5) - 58768] & 0xff) == 1) ? 1 : 0;
      l14 = b[((int) l5) - 58759] & 0xff;
      l12 = b[((int) l5) - 58760] & 0xff;
     }
     if (l10 == 0) { break L27; }
     if ((l12 & 255) != 1) { break L27; }
     if (((((l11 & 255) != 1) | ((l13 & 255) == 0)) ? 1 : 0) != 1) { break L27; }
     if ((l14 & 255) + Integer.MIN_VALUE <= -2147483647) { break L27; }
     Core2.f42(m, l5 + 80L, l1, l2, l9, l4, l7);
     l3 = Words.get64(b, ((int) l5) - 58816);
     if ((b[((int) l5) - 58832] & 0xff) != 0) { break L26; }
     L35: {
      if ((l11 & 255) != 0) { break L35; }
      Core2.f43(m, l5 + 48L, l1, l3, Words.get64(b, ((int) l5) - 58808), l14, l13);
      final int t36 = (int) l5;
      final long t37 = Words.get64(b, ((int) l5) - 58848);
      final int t38 = l9 = ((b[((int) l5) - 58864] & 0xff) != 1) ? 1 : 0;
      Words.put64(b, t36 - 58784, l3 = t38 != 0 ? 0L : t37);
      final int t39 = (int) l5;
      final long t40 = Words.get64(b, ((int) l5) - 58840);
      final int t41 = l9;
      Words.put64(b, t39 - 58776, l6 = t41 != 0 ? 0L : t40);
      Words.put64(b, ((int) l5) - 58880, l3);
      Words.put64(b, ((int) l5) - 58872, l6);
      l10 = l9 != 0 ? 2 : 0;
      break L1;
     }
     l3 = Core2.f44(m, l4, l7);
     Words.put64(b, ((int) l5) - 58872, Words.get64(b, ((int) l5) - 58776));
     Words.put64(b, ((int) l5) - 58880, l3 = (l3 + l2) + 1L);
     Words.put64(b, ((int) l5) - 58784, l3);
     l10 = 1;
     l9 = 1;
     break L1;
    }
    Core2.f42(m, l5 + 112L, l1, l2, l9, l3, l6);
    Words.put64(b, ((int) l5) - 58880, Words.get64(b, ((int) l5) - 58784));
    Words.put64(b, ((int) l5) - 58872, Words.get64(b, ((int) l5) - 58776));
    l10 = b[((int) l5) - 58792] & 0xff;
    l9 = b[((int) l5) - 58800] & 0xff;
    break L1;
   }
   Words.put64(b, ((int) l5) - 58776, 0L);
   Words.put64(b, ((int) l5) - 58784, l3);
   Words.put64(b, ((int) l5) - 58880, l3);
   Words.put64(b, ((int) l5) - 58872, 0L);
   l9 = 1;
   l10 = b[((int) l5) - 58824] & 0xff;
   break L1;
  }
  l9 = 1;
  l10 = 0;
 }
 Words.put64(b, ((int) (l0 + 16L)) - 58912, Words.get64(b, ((int) l5) - 58880));
 Words.put64(b, ((int) (l0 + 24L)) - 58912, Words.get64(b, ((int) l5) - 58872));
 Words.put64(b, ((int) (l0 + 8L)) - 58912, (l10 & 0xffffffffL) & 255L);
 Words.put64(b, ((int) l0) - 58912, (l9 & 0xffffffffL) & 255L);
 m.g0 = l5 + 176L;
}

static int f101_1(State m, long l0, int l1, long l2, long l4, long l6, long l8, long l9, long l12, long l13, long l14, long l16, long l17, int l18, int l19, int l20, int l21, int l22, int l23) {
 final byte[] b = m.bytes;
 int exit = 0;
 PART: {
  L48: {
   L49: {
    L50: {
     L51: {
      L52: {
       L53: {
        L54: {
         L55: {
          if (l8 == 0L) { break L55; }
          l14 = l13 + l2;
          l12 = l8;
          l4 = l9;
          L56: while (true) {
           L57: {
            L58: {
             if ((l18 = b[((int) l4) - 58912] & 0xff) + Integer.MIN_VALUE > -2147483616) { break L58; }
             if (((1L << (l18 & 0xffffffffL)) & 4294983168L) == 0L) { break L58; }
             l13 = 1L;
             break L57;
            }
            L59: {
             L60: {
              L61: {
               if (l18 == 194) { break L61; }
               if (l12 + Long.MIN_VALUE < -9223372036854775805L) { break L60; }
               if (((l18 + 28) & 255) + Integer.MIN_VALUE < -2147483395) { break L60; }
               l19 = b[((int) (l4 + 1L)) - 58912] & 0xff;
               l21 = (int) (byte) (l20 = b[((int) (l4 + 2L)) - 58912] & 0xff);
               if (l18 != 226) { break L59; }
               if ((l19 & 255) != 128) { break L59; }
               l13 = 3L;
               if (l21 < -117) { break L57; }
               if ((l20 + -168) + Integer.MIN_VALUE < -2147483646) { break L57; }
               if (l20 != 175) { break L54; }
               break L57;
              }
              l13 = 1L;
              l18 = b[((int) l4) - 58911] & 0xff;
              L62: {
               if (l12 != 1L) { break L62; }
               l21 = l18 & 63;
               l18 = 194;
               break L52;
              }
              l13 = 2L;
              if (l18 == 133) { break L57; }
              if (l18 == 160) { break L57; }
             }
             if (l12 + Long.MIN_VALUE >= -9223372036854775805L) { break L54; }
             l19 = b[((int) l4) - 58912] & 0xff;
             break L53;
            }
            L63: {
             L64: {
              L65: {
               L66: {
                switch (l18 + -225) {
                case 1: break L65;
                case 2: break L64;
                default: break L66;
                }
               }
               if ((l19 & 255) != 154) { break L54; }
               if (l21 != -128) { break L54; }
               break L63;
              }
              if ((l19 & 255) != 129) { break L54; }
              if (l21 == -97) { break L63; }
              break L54;
             }
             if ((l19 & 255) != 128) { break L54; }
             if (l21 != -128) { break L54; }
            }
            l13 = 3L;
           }
           l14 = l14 + 1L;
           l4 = l4 + l13;
           if (!((l12 = l12 - l13) == 0L)) { continue L56; }
           break L56;
          }
          l4 = 0L;
         }
         Words.put64(b, ((int) l6) - 58752, l4);
         Words.put64(b, ((int) l6) - 58760, l4);
         l18 = 0;
         break L49;
        }
        if (((l19 = b[((int) l4) - 58912] & 0xff) & 240) != 224) { break L53; }
        l18 = (((b[((int) l4) - 58910] & 0xff) + ((b[((int) l4) - 58911] & 0xff) << 6)) + (l19 << 12)) + -925824;
        l13 = l12 + -3L;
        l4 = l4 + 3L;
        break L50;
       }
       l18 = l19 & 255;
       l16 = 1L;
       L67: {
        if (((int) (byte) l19) > -1) { break L67; }
        l21 = (b[((int) l4) - 58911] & 0xff) & 63;
        L68: {
         if ((l19 & 255) + Integer.MIN_VALUE > -2147483425) { break L68; }
         l13 = l12;
         break L52;
        }
        l20 = (b[((int) l4) - 58910] & 0xff) & 63;
        L69: {
         if ((l19 & 255) + Integer.MIN_VALUE > -2147483409) { break L69; }
         l18 = ((l21 << 6) | ((l18 << 12) & 61440)) | l20;
         l16 = 3L;
         break L67;
        }
        l18 = ((l20 << 6) | ((l21 << 12) | ((l18 << 18) & 1835008))) | ((b[((int) l4) - 58909] & 0xff) & 63);
        l16 = 4L;
       }
       l13 = l12;
       break L51;
      }
      l18 = ((l18 << 6) & 1984) | l21;
      l16 = 2L;
     }
     l13 = l13 - l16;
     l4 = l4 + l16;
    }
    Words.put64(b, ((int) l6) - 58712, 0L);
    Words.put64(b, ((int) l6) - 58720, 0L);
    Words.put64(b, ((int) l6) - 58728, 0L);
    Words.put64(b, ((int) l6) - 58736, 0L);
    L70: {
     L71: {
      L72: {
       L73: {
        L74: {
         L75: {
          L76: {
           L77: {
            if (l13 + Long.MIN_VALUE < -9223372036854775804L) { break L77; }
            if (Words.get32(b, ((int) ((l17 = ((((l19 = Words.get32(b, ((int) ((l4 + l13) + -4L)) - 58912) >>> 8) & 0xffffffffL) * 953497L) >>> 22L) & 1016L) + 66852L)) - 58912) != l19) { break L75; }
            l12 = l13 + -3L;
            l16 = l4;
            break L76;
           }
           if (l13 != 3L) { break L75; }
           if (Words.get32(b, ((int) ((l17 = ((((l19 = (Words.get16(b, ((int) l4) - 58912) & 0xffff) | ((b[((int) l4) - 58910] & 0xff) << 16)) & 0xffffffffL) * 953497L) >>> 22L) & 1016L) + 66852L)) - 58912) != l19) { break L75; }
           l16 = l4 + 3L;
           l12 = 0L;
          }
          l20 = b[((int) (l17 + 66856L)) - 58912] & 0xff;
          l22 = b[((int) (l17 + 66857L)) - 58912] & 0xff;
          break L74;
         }
         Core2.f41(m, l6 + 176L, l4, l13);
         if ((b[((int) l6) - 58736] & 0xff) != 1) { break L73; }
         l12 = Words.get64(b, ((int) l6) - 58712);
         l16 = Words.get64(b, ((int) l6) - 58720);
         l22 = b[((int) l6) - 58727] & 0xff;
         l20 = b[((int) l6) - 58728] & 0xff;
        }
        Words.put64(b, ((int) l6) - 58712, 0L);
        Words.put64(b, ((int) l6) - 58720, 0L);
        Words.put64(b, ((int) l6) - 58728, 0L);
        Words.put64(b, ((int) l6) - 58736, 0L);
        L78: {
         L79: {
          L80: {
           if (l12 + Long.MIN_VALUE < -9223372036854775804L) { break L80; }
           if (Words.get32(b, ((int) ((l17 = ((((l19 = Words.get32(b, ((int) ((l16 + l12) + -4L)) - 58912) >>> 8) & 0xffffffffL) * 953497L) >>> 22L) & 1016L) + 66852L)) - 58912) != l19) { break L79; }
           l21 = b[((int) (l17 + 66856L)) - 58912] & 0xff;
           l23 = b[((int) (l17 + 66857L)) - 58912] & 0xff;
           l19 = 1;
           break L78;
          }
          if (l12 != 3L) { break L79; }
          if (Words.get32(b, ((int) ((l17 = ((((l19 = (Words.get16(b, ((int) l16) - 58912) & 0xffff) | ((b[((int) l16) - 58910] & 0xff) << 16)) & 0xffffffffL) * 953497L) >>> 22L) & 1016L) + 66852L)) - 58912) != l19) { break L79; }
          l21 = b[((int) (l17 + 66856L)) - 58912] & 0xff;
          l23 = b[((int) (l17 + 66857L)) - 58912] & 0xff;
          l19 = 1;
          break L78;
         }
         Core2.f41(m, l6 + 176L, l16, l12);
         l19 = ((b[((int) l6) - 58736] & 0xff) == 1) ? 1 : 0;
         l23 = b[((int) l6) - 58727] & 0xff;
         l21 = b[((int) l6) - 58728] & 0xff;
        }
        if (l19 == 0) { break L73; }
        if ((l21 & 255) != 1) { break L73; }
        if (((((l20 & 255) != 1) | ((l22 & 255) == 0)) ? 1 : 0) != 1) { break L73; }
        if ((l23 & 255) + Integer.MIN_VALUE <= -2147483647) { break L73; }
        Core2.f42(m, l6 + 112L, l1, l14, l18, l16, l12);
        l4 = Words.get64(b, ((int) l6) - 58784);
        if ((b[((int) l6) - 58800] & 0xff) != 0) { break L72; }
        if ((l20 & 255) == 0) { break L71; }
        Words.put64(b, ((int) l6) - 58752, l4 = (Core2.f44(m, l16, l12) + l14) + 1L);
        l18 = 1;
        break L49;
       }
       Core2.f42(m, l6 + 144L, l1, l14, l18, l4, l13);
       l4 = Words.get64(b, ((int) l6) - 58752);
       if ((b[((int) l6) - 58768] & 0xff) != 0) { break L70; }
       l13 = Words.get64(b, ((int) l6) - 58744);
       break L48;
      }
      Words.put64(b, ((int) l6) - 58744, 0L);
      Words.put64(b, ((int) l6) - 58752, l4);
      l18 = b[((int) l6) - 58792] & 0xff;
      break L49;
     }
     Core2.f43(m, l6 + 80L, l1, l4, Words.get64(b, ((int) l6) - 58776), l23, l22);
     final long t81 = Words.get64(b, ((int) l6) - 58816);
     final int t82 = l18 = ((b[((int) l6) - 58832] & 0xff) == 1) ? 1 : 0;
     l4 = t82 != 0 ? t81 : 0L;
     L83: {
      if (l18 == 0) { break L83; }
      final long t84 = Words.get64(b, ((int) l6) - 58808);
      final int t85 = l18;
      l13 = t85 != 0 ? t84 : 0L;
      break L48;
     }
     l18 = l18 != 0 ? 0 : 2;
     break L49;
    }
    l18 = b[((int) l6) - 58760] & 0xff;
   }
   Words.put64(b, ((int) l0) - 58912, 1L);
   Words.put64(b, ((int) (l0 + 24L)) - 58912, 0L);
   Words.put64(b, ((int) (l0 + 16L)) - 58912, l4);
   Words.put64(b, ((int) (l0 + 8L)) - 58912, (l18 & 0xffffffffL) & 255L);
   exit = 1; break PART;
  }
 }
 m.kept[0] = l4;
 m.kept[1] = l12;
 m.kept[2] = l13;
 m.kept[3] = l14;
 m.kept[4] = l16;
 m.kept[5] = l17;
 m.kept[6] = l18;
 m.kept[7] = l19;
 m.kept[8] = l20;
 m.kept[9] = l21;
 m.kept[10] = l22;
 m.kept[11] = l23;
 return exit;
}

static void f101(State m, long l0, int l1, long l2, int l3, long l4) {
 final byte[] b = m.bytes;
 long l5 = 0;
 long l6 = 0;
 long l7 = 0;
 long l8 = 0;
 long l9 = 0;
 long l10 = 0;
 long l11 = 0;
 long l12 = 0;
 long l13 = 0;
 long l14 = 0;
 long l15 = 0;
 long l16 = 0;
 long l17 = 0;
 int l18 = 0;
 int l19 = 0;
 int l20 = 0;
 int l21 = 0;
 int l22 = 0;
 int l23 = 0;
 m.g0 = l5 = m.g0 - 208L;
 L1: {
  L2: {
   L3: {
    L4: {
     L5: {
      L6: {
       L7: {
        L8: {
         L9: {
          if ((l6 = l5) < 16L) { break L9; }
          l7 = Words.get64(b, ((int) l4) - 58880);
          l8 = Words.get64(b, ((int) l4) - 58888);
          l9 = Words.get64(b, ((int) l4) - 58896);
          l10 = Words.get64(b, ((int) l4) - 58904);
          l11 = Words.get64(b, ((int) l4) - 58912);
          l5 = 0L;
          Words.put64(b, ((int) l6) - 58840, 0L);
          Words.put64(b, ((int) l6) - 58848, 0L);
          Words.put64(b, ((int) l6) - 58856, 0L);
          Words.put64(b, ((int) l6) - 58864, 0L);
          Words.put64(b, ((int) l6) - 58872, 0L);
          Words.put64(b, ((int) l6) - 58768, 0L);
          Words.put64(b, ((int) l6) - 58760, 0L);
          Words.put64(b, ((int) l6) - 58752, 0L);
          Words.put64(b, ((int) l6) - 58744, 0L);
          Words.put64(b, ((int) l6) - 58800, 0L);
          Words.put64(b, ((int) l6) - 58792, 0L);
          Words.put64(b, ((int) l6) - 58784, 0L);
          Words.put64(b, ((int) l6) - 58776, 0L);
          Words.put64(b, ((int) l6) - 58832, 0L);
          Words.put64(b, ((int) l6) - 58824, 0L);
          Words.put64(b, ((int) l6) - 58816, 0L);
          Words.put64(b, ((int) l6) - 58808, 0L);
          l12 = l2;
          l13 = l10;
          l4 = l11;
          if (l10 == 0L) { break L3; }
          L10: while (true) {
           L11: {
            L12: {
             if ((l18 = b[((int) l4) - 58912] & 0xff) + Integer.MIN_VALUE > -2147483616) { break L12; }
             if (((1L << (l18 & 0xffffffffL)) & 4294983168L) == 0L) { break L12; }
             l5 = 1L;
             break L11;
            }
            L13: {
             L14: {
              L15: {
               if (l18 == 194) { break L15; }
               if (l13 + Long.MIN_VALUE < -9223372036854775805L) { break L14; }
               if (((l18 + 28) & 255) + Integer.MIN_VALUE < -2147483395) { break L14; }
               l19 = b[((int) (l4 + 1L)) - 58912] & 0xff;
               l21 = (int) (byte) (l20 = b[((int) (l4 + 2L)) - 58912] & 0xff);
               if (l18 != 226) { break L13; }
               if ((l19 & 255) != 128) { break L13; }
               l5 = 3L;
               if (l21 < -117) { break L11; }
               if ((l20 + -168) + Integer.MIN_VALUE < -2147483646) { break L11; }
               if (l20 != 175) { break L8; }
               break L11;
              }
              l5 = 1L;
              l18 = b[((int) l4) - 58911] & 0xff;
              L16: {
               if (l13 != 1L) { break L16; }
               l21 = l18 & 63;
               l18 = 194;
               break L6;
              }
              l5 = 2L;
              if (l18 == 133) { break L11; }
              if (l18 == 160) { break L11; }
             }
             if (l13 + Long.MIN_VALUE >= -9223372036854775805L) { break L8; }
             l19 = b[((int) l4) - 58912] & 0xff;
             break L7;
            }
            L17: {
             L18: {
              L19: {
               L20: {
                switch (l18 + -225) {
                case 1: break L19;
                case 2: break L18;
                default: break L20;
                }
               }
               if ((l19 & 255) != 154) { break L8; }
               if (l21 != -128) { break L8; }
               break L17;
              }
              if ((l19 & 255) != 129) { break L8; }
              if (l21 == -97) { break L17; }
              break L8;
             }
             if ((l19 & 255) != 128) { break L8; }
             if (l21 != -128) { break L8; }
            }
            l5 = 3L;
           }
           l12 = l12 + 1L;
           l4 = l4 + l5;
           if (!((l13 = l13 - l5) == 0L)) { continue L10; }
           break L10;
          }
          l5 = 0L;
          break L3;
         }
         throw State.trap();
        }
        if (((l19 = b[((int) l4) - 58912] & 0xff) & 240) != 224) { break L7; }
        l18 = (((b[((int) l4) - 58910] & 0xff) + ((b[((int) l4) - 58911] & 0xff) << 6)) + (l19 << 12)) + -925824;
        l5 = l13 + -3L;
        l4 = l4 + 3L;
        break L4;
       }
       l18 = l19 & 255;
       l14 = 1L;
       L21: {
        if (((int) (byte) l19) > -1) { break L21; }
        l21 = (b[((int) l4) - 58911] & 0xff) & 63;
        L22: {
         if ((l19 & 255) + Integer.MIN_VALUE > -2147483425) { break L22; }
         l5 = l13;
         break L6;
        }
        l20 = (b[((int) l4) - 58910] & 0xff) & 63;
        L23: {
         if ((l19 & 255) + Integer.MIN_VALUE > -2147483409) { break L23; }
         l18 = ((l21 << 6) | ((l18 << 12) & 61440)) | l20;
         l14 = 3L;
         break L21;
        }
        l18 = ((l20 << 6) | ((l21 << 12) | ((l18 << 18) & 1835008))) | ((b[((int) l4) - 58909] & 0xff) & 63);
        l14 = 4L;
       }
       l5 = l13;
       break L5;
      }
      l18 = ((l18 << 6) & 1984) | l21;
      l14 = 2L;
     }
     l5 = l5 - l14;
     l4 = l4 + l14;
    }
    Words.put64(b, ((int) l6) - 58712, 0L);
    Words.put64(b, ((int) l6) - 58720, 0L);
    Words.put64(b, ((int) l6) - 58728, 0L);
    Words.put64(b, ((int) l6) - 58736, 0L);
    L24: {
     L25: {
      L26: {
       L27: {
        L28: {
         L29: {
          L30: {
           L31: {
            L32: {
             L33: {
              L34: {
               if (l5 + Long.MIN_VALUE < -9223372036854775804L) { break L34; }
               if (Words.get32(b, ((int) ((l15 = ((((l19 = Words.get32(b, ((int) ((l4 + l5) + -4L)) - 58912) >>> 8) & 0xffffffffL) * 953497L) >>> 22L) & 1016L) + 66852L)) - 58912) != l19) { break L32; }
               l13 = l5 + -3L;
               l14 = l4;
               break L33;
              }
              if (l5 != 3L) { break L32; }
              if (Words.get32(b, ((int) ((l15 = ((((l19 = (Words.get16(b, ((int) l4) - 58912) & 0xffff) | ((b[((int) l4) - 58910] & 0xff) << 16)) & 0xffffffffL) * 953497L) >>> 22L) & 1016L) + 66852L)) - 58912) != l19) { break L32; }
              l14 = l4 + 3L;
              l13 = 0L;
             }
             l20 = b[((int) (l15 + 66856L)) - 58912] & 0xff;
             l22 = b[((int) (l15 + 66857L)) - 58912] & 0xff;
             break L31;
            }
            Core2.f41(m, l6 + 176L, l4, l5);
            if ((b[((int) l6) - 58736] & 0xff) != 1) { break L30; }
            l13 = Words.get64(b, ((int) l6) - 58712);
            l14 = Words.get64(b, ((int) l6) - 58720);
            l22 = b[((int) l6) - 58727] & 0xff;
            l20 = b[((int) l6) - 58728] & 0xff;
           }
           Words.put64(b, ((int) l6) - 58712, 0L);
           Words.put64(b, ((int) l6) - 58720, 0L);
           Words.put64(b, ((int) l6) - 58728, 0L);
           Words.put64(b, ((int) l6) - 58736, 0L);
           L35: {
            L36: {
             L37: {
              if (l13 + Long.MIN_VALUE < -9223372036854775804L) { break L37; }
              if (Words.get32(b, ((int) ((l15 = ((((l19 = Words.get32(b, ((int) ((l14 + l13) + -4L)) - 58912) >>> 8) & 0xffffffffL) * 953497L) >>> 22L) & 1016L) + 66852L)) - 58912) != l19) { break L36; }
              l21 = b[((int) (l15 + 66856L)) - 58912] & 0xff;
              l23 = b[((int) (l15 + 66857L)) - 58912] & 0xff;
              l19 = 1;
              break L35;
             }
             if (l13 != 3L) { break L36; }
             if (Words.get32(b, ((int) ((l15 = ((((l19 = (Words.get16(b, ((int) l14) - 58912) & 0xffff) | ((b[((int) l14) - 58910] & 0xff) << 16)) & 0xffffffffL) * 953497L) >>> 22L) & 1016L) + 66852L)) - 58912) != l19) { break L36; }
             l21 = b[((int) (l15 + 66856L)) - 58912] & 0xff;
             l23 = b[((int) (l15 + 66857L)) - 58912] & 0xff;
             l19 = 1;
             break L35;
            }
            Core2.f41(m, l6 + 176L, l14, l13);
            l19 = ((b[((int) l6) - 58736] & 0xff) == 1) ? 1 : 0;
            l23 = b[((int) l6) - 58727] & 0xff;
            l21 = b[((int) l6) - 58728] & 0xff;
           }
           if (l19 == 0) { break L30; }
           if ((l21 & 255) != 1) { break L30; }
           if (((((l20 & 255) != 1) | ((l22 & 255) == 0)) ? 1 : 0) != 1) { break L30; }
           if ((l23 & 255) + Integer.MIN_VALUE <= -2147483647) { break L30; }
           Core2.f42(m, l6 + 112L, l1, l12, l18, l14, l13);
           l5 = Words.get64(b, ((int) l6) - 58784);
           if ((b[((int) l6) - 58800] & 0xff) != 0) { break L29; }
           if ((l20 & 255) == 0) { break L28; }
           Words.put64(b, ((int) l6) - 58752, l5 = (Core2.f44(m, l14, l13) + l12) + 1L);
           l18 = 1;
           break L2;
          }
          Core2.f42(m, l6 + 144L, l1, l12, l18, l4, l5);
          l5 = Words.get64(b, ((int) l6) - 58752);
          if ((b[((int) l6) - 58768] & 0xff) != 0) { break L26; }
          l15 = Words.get64(b, ((int) l6) - 58744);
          break L27;
         }
         Words.put64(b, ((int) l6) - 58744, 0L);
         Words.put64(b, ((int) l6) - 58752, l5);
         l18 = b[((int) l6) - 58792] & 0xff;
         break L2;
        }
        Core2.f43(m, l6 + 80L, l1, l5, Words.get64(b, ((int) l6) - 58776), l23, l22);
        final long t38 = Words.get64(b, ((int) l6) - 58816);
        final int t39 = l19 = ((l18 = b[((int) l6) - 58832] & 0xff) == 1) ? 1 : 0;
        l5 = t39 != 0 ? t38 : 0L;
        if (l18 != 1) { break L25; }
        final long t40 = Words.get64(b, ((int) l6) - 58808);
        final int t41 = l19;
        l15 = t41 != 0 ? t40 : 0L;
       }
       l13 = 0L;
       l4 = 0L;
       L42: {
        if (l10 + Long.MIN_VALUE < -9223372036854775776L) { break L42; }
        Core1.f25(m, l6 + 24L, l11, l10, l10);
        l13 = l10 - Words.get64(b, ((int) l6) - 58880);
        l4 = Words.get64(b, ((int) l6) - 58888);
       }
       if ((l10 - l4) + Long.MIN_VALUE < -9223372036854775800L) { break L24; }
       L43: while (true) {
        L44: {
         L45: {
          if (((l12 = Words.get64(b, ((int) (l11 + l4)) - 58912)) & 67553998437089520L) != 63050398541283552L) { break L45; }
          l13 = l13 + 3L;
          l4 = l4 + 9L;
          break L44;
         }
         if ((l12 & -9187201950435737472L) != 0L) { break L24; }
         l13 = l13 + 8L;
         l4 = l4 + 8L;
        }
        if ((l10 - l4) + Long.MIN_VALUE <= -9223372036854775801L) { break L24; }
        continue L43;
       }
      }
      l18 = b[((int) l6) - 58760] & 0xff;
      break L2;
     }
     l18 = l19 != 0 ? 0 : 2;
     break L2;
    }
    L46: {
     if (l4 + Long.MIN_VALUE >= l10 + Long.MIN_VALUE) { break L46; }
     L47: while (true) {
      l13 = l13 + 1L;
      if ((l4 = Words.get64(b, ((int) (((((b[((int) (l11 + l4)) - 58912] & 0xff) >>> 1) & 0xffffffffL) & 120L) + 66680L)) - 58912) + l4) + Long.MIN_VALUE < l10 + Long.MIN_VALUE) { continue L47; }
      break L47;
     }
    }
    l4 = 0L;
    Words.put64(b, ((int) l6) - 58768, 0L);
    Words.put64(b, ((int) l6) - 58760, 0L);
    Words.put64(b, ((int) l6) - 58752, 0L);
    Words.put64(b, ((int) l6) - 58744, 0L);
    Words.put64(b, ((int) l6) - 58800, 0L);
    Words.put64(b, ((int) l6) - 58792, 0L);
    Words.put64(b, ((int) l6) - 58784, 0L);
    Words.put64(b, ((int) l6) - 58776, 0L);
    Words.put64(b, ((int) l6) - 58832, 0L);
    Words.put64(b, ((int) l6) - 58824, 0L);
    Words.put64(b, ((int) l6) - 58816, 0L);
    Words.put64(b, ((int) l6) - 58808, 0L);
    final int x86 = f101_1(m, l0, l1, l2, l4, l6, l8, l9, l12, l13, l14, l16, l17, l18, l19, l20, l21, l22, l23);
    l4 = m.kept[0];
    l12 = m.kept[1];
    l13 = m.kept[2];
    l14 = m.kept[3];
    l16 = m.kept[4];
    l17 = m.kept[5];
    l18 = (int) m.kept[6];
    l19 = (int) m.kept[7];
    l20 = (int) m.kept[8];
    l21 = (int) m.kept[9];
    l22 = (int) m.kept[10];
    l23 = (int) m.kept[11];
    switch (x86) {
    case 1: break L1;
    }
    L87: {
     L88: {
      L89: {
       if ((l12 = Words.get16(b, ((int) (((((l1 & 0xffffffffL) & 255L) << 5L) + (((l3 & 0xffffffffL) & 255L) << 1L)) + 68960L)) - 58912) & 0xffffL) + Long.MIN_VALUE > -9223372036854775770L) { break L89; }
       final int t90 = (l4 + Long.MIN_VALUE < Words.get64(b, ((int) ((l12 = l12 << 4L) + 68336L)) - 58912) + Long.MIN_VALUE) ? 1 : 0;
       final int t91 = (l13 + Long.MIN_VALUE < (l12 = Words.get64(b, ((int) (l12 + 68344L)) - 58912)) + Long.MIN_VALUE) ? 1 : 0;
       final int t92 = (l13 == l12) ? 1 : 0;
       if ((t92 != 0 ? t90 : t91) == 0) { break L88; }
      }
      final long t93 = (l13 + l15) + (((l12 = l4 + l5) + Long.MIN_VALUE < l4 + Long.MIN_VALUE) ? 1L : 0L);
      final int t94 = (l5 + Long.MIN_VALUE > (l4 ^ -1L) + Long.MIN_VALUE) ? 1 : 0;
      final int t95 = (l15 + Long.MIN_VALUE > (l4 = l13 ^ -1L) + Long.MIN_VALUE) ? 1 : 0;
      final int t96 = (l15 == l4) ? 1 : 0;
      l4 = ((l18 = t96 != 0 ? t94 : t95) != 0) ? 0L : t93;
      l5 = l18 != 0 ? 0L : l12;
      l19 = l18 != 0 ? 2 : 0;
      l13 = l18 & 0xffffffffL;
      break L87;
     }
     Words.put64(b, ((int) l6) - 58840, l7);
     Words.put64(b, ((int) l6) - 58848, l8);
     Words.put64(b, ((int) l6) - 58856, l9);
     Words.put64(b, ((int) l6) - 58864, l10);
     Words.put64(b, ((int) l6) - 58872, l11);
     f102(m, l6 + 8L, l2, l6 + 40L);
     l4 = 0L;
     l13 = 1L;
     l5 = Words.get64(b, ((int) l6) - 58896);
     l19 = b[((int) l6) - 58904] & 0xff;
    }
    Words.put64(b, ((int) l0) - 58912, l13);
    Words.put64(b, ((int) (l0 + 24L)) - 58912, l4);
    Words.put64(b, ((int) (l0 + 16L)) - 58912, l5);
    Words.put64(b, ((int) (l0 + 8L)) - 58912, (l19 & 0xffffffffL) & 255L);
    break L1;
   }
   Words.put64(b, ((int) l6) - 58752, l5);
   Words.put64(b, ((int) l6) - 58760, l5);
   l18 = 0;
  }
  Words.put64(b, ((int) l0) - 58912, 1L);
  Words.put64(b, ((int) (l0 + 24L)) - 58912, 0L);
  Words.put64(b, ((int) (l0 + 16L)) - 58912, l5);
  Words.put64(b, ((int) (l0 + 8L)) - 58912, (l18 & 0xffffffffL) & 255L);
 }
 m.g0 = l6 + 208L;
}

static void f102(State m, long l0, long l1, long l2) {
 final byte[] b = m.bytes;
 long l3 = 0;
 long l4 = 0;
 long l5 = 0;
 long l6 = 0;
 long l7 = 0;
 long l8 = 0;
 int l9 = 0;
 int l10 = 0;
 int l11 = 0;
 int l12 = 0;
 int l13 = 0;
 m.g0 = l3 = m.g0 - 16L;
 L1: {
  L2: {
   L3: {
    if ((l4 = l3) < 16L) { break L3; }
    l5 = 0L;
    l9 = 0;
    if ((l6 = Words.get64(b, ((int) l2) - 58888)) == 0L) { break L1; }
    l7 = Words.get64(b, ((int) l2) - 58904);
    l8 = Words.get64(b, ((int) l2) - 58912);
    l2 = Words.get64(b, ((int) l2) - 58896);
    L4: while (true) {
     L5: {
      L6: {
       if ((l10 = b[((int) l2) - 58912] & 0xff) + Integer.MIN_VALUE > -2147483616) { break L6; }
       if (((1L << (l10 & 0xffffffffL)) & 4294983168L) == 0L) { break L6; }
       l3 = 1L;
       break L5;
      }
      L7: {
       if (l10 != 194) { break L7; }
       if (l6 == 1L) { break L2; }
       l3 = 2L;
       if ((l10 = b[((int) l2) - 58911] & 0xff) == 133) { break L5; }
       if (l10 == 160) { break L5; }
       break L2;
      }
      if (l6 + Long.MIN_VALUE < -9223372036854775805L) { break L2; }
      if (((l10 + 28) & 255) + Integer.MIN_VALUE < -2147483395) { break L2; }
      l11 = b[((int) (l2 + 1L)) - 58912] & 0xff;
      l13 = (int) (byte) (l12 = b[((int) (l2 + 2L)) - 58912] & 0xff);
      L8: {
       if (l10 != 226) { break L8; }
       if ((l11 & 255) != 128) { break L8; }
       l3 = 3L;
       if (l13 < -117) { break L5; }
       if ((l10 = l12 + -168) + Integer.MIN_VALUE > -2147483641) { break L2; }
       if (((1 << l10) & 131) == 0) { break L2; }
       break L5;
      }
      L9: {
       L10: {
        L11: {
         L12: {
          switch (l10 + -225) {
          case 1: break L11;
          case 2: break L10;
          default: break L12;
          }
         }
         if ((l11 & 255) != 154) { break L2; }
         if (l13 != -128) { break L2; }
         break L9;
        }
        if ((l11 & 255) != 129) { break L2; }
        if (l13 != -97) { break L2; }
        break L9;
       }
       if ((l11 & 255) != 128) { break L2; }
       if (l13 != -128) { break L2; }
      }
      l3 = 3L;
     }
     l1 = l1 + 1L;
     l2 = l2 + l3;
     if (!((l6 = l6 - l3) == 0L)) { continue L4; }
     break L1;
    }
   }
   throw State.trap();
  }
  l3 = 0L;
  l2 = 0L;
  L13: {
   if (l7 + Long.MIN_VALUE < -9223372036854775776L) { break L13; }
   Core1.f25(m, l4, l8, l7, l7);
   l3 = l7 - Words.get64(b, ((int) l4) - 58904);
   l2 = Words.get64(b, ((int) l4) - 58912);
  }
  L14: {
   if ((l7 - l2) + Long.MIN_VALUE < -9223372036854775800L) { break L14; }
   L15: while (true) {
    L16: {
     L17: {
      if (((l6 = Words.get64(b, ((int) (l8 + l2)) - 58912)) & 67553998437089520L) != 63050398541283552L) { break L17; }
      l3 = l3 + 3L;
      l2 = l2 + 9L;
      break L16;
     }
     if ((l6 & -9187201950435737472L) != 0L) { break L14; }
     l3 = l3 + 8L;
     l2 = l2 + 8L;
    }
    if ((l7 - l2) + Long.MIN_VALUE > -9223372036854775801L) { continue L15; }
    break L15;
   }
  }
  L18: {
   if (l2 + Long.MIN_VALUE >= l7 + Long.MIN_VALUE) { break L18; }
   L19: while (true) {
    l3 = l3 + 1L;
    if ((l2 = Words.get64(b, ((int) (((((b[((int) (l8 + l2)) - 58912] & 0xff) >>> 1) & 0xffffffffL) & 120L) + 66680L)) - 58912) + l2) + Long.MIN_VALUE < l7 + Long.MIN_VALUE) { continue L19; }
    break L19;
   }
  }
  l5 = l3 + l1;
  l9 = 1;
 }
 Words.put64(b, ((int) l0) - 58904, l5);
 b[((int) l0) - 58912] = (byte) l9;
 m.g0 = l4 + 16L;
}

static int f103(State m, int l0, long l1, long l2) {
 final byte[] b = m.bytes;
 long l3 = 0;
 long l4 = 0;
 int l5 = 0;
 int l6 = 0;
 m.g0 = l3 = m.g0 - 32L;
 L1: {
  L2: {
   if ((l3 = l3) < 16L) { break L2; }
   Words.put64(b, ((int) l3) - 58888, 0L);
   Words.put64(b, ((int) l3) - 58896, 0L);
   Words.put64(b, ((int) l3) - 58904, 0L);
   Words.put64(b, ((int) l3) - 58912, 0L);
   f86(m, l3, l1, l2);
   if ((b[((int) l3) - 58912] & 0xff) != 1) { break L1; }
   L3: while (true) {
    l2 = Words.get64(b, ((int) l3) - 58888);
    l1 = Words.get64(b, ((int) l3) - 58896);
    L4: {
     if (((l5 = Words.get32(b, ((int) l3) - 58904)) + -2048) + Integer.MIN_VALUE > -2147420161) { break L4; }
     if ((l6 = Words.get32(b, State.far((int) (l4 = ((((l5 = (((l5 >>> 12) | ((l5 << 2) & 16128)) | ((l5 << 16) & 4128768)) | 8421600) & 0xffffffffL) * 953497L) >>> 22L) & 1016L), 66852))) != l5) { break L4; }
     if (((b[((int) (l4 + 66856L)) - 58912] & 0xff) & 255) != 1) { break L4; }
     L5: {
      final int t6 = b[((int) (l4 + 66857L)) - 58912] & 0xff;
      final int t7 = (l6 == l5) ? 1 : 0;
      if (((l5 = t7 != 0 ? t6 : 0) & 255) + Integer.MIN_VALUE < -2147483644) { break L5; }
      l0 = 0;
      break L1;
     }
     l0 = (((l5 & 255) != 0) ? 1 : 0) | l0;
    }
    f86(m, l3, l1, l2);
    if ((b[((int) l3) - 58912] & 0xff) == 1) { continue L3; }
    break L1;
   }
  }
  throw State.trap();
 }
 m.g0 = l3 + 32L;
 return l0 & 1;
}

static int f104(State m, long l0, int l1, long l2, long l3) {
 final byte[] b = m.bytes;
 long l4 = 0;
 int l5 = 0;
 int l6 = 0;
 int l7 = 0;
 int l8 = 0;
 m.g0 = l4 = m.g0 - 32L;
 L1: {
  L2: {
   L3: {
    if ((l4 = l4) < 16L) { break L3; }
    l5 = b[((int) l0) - 58911] & 0xff;
    l6 = b[((int) l0) - 58912] & 0xff;
    Words.put64(b, ((int) l4) - 58888, 0L);
    Words.put64(b, ((int) l4) - 58896, 0L);
    Words.put64(b, ((int) l4) - 58904, 0L);
    Words.put64(b, ((int) l4) - 58912, 0L);
    l7 = 0;
    L4: {
     if (l1 == 20004) { break L4; }
     if (l1 != 20841) { break L1; }
    }
    f86(m, l4, l2, l3);
    l7 = 1;
    L5: {
     if ((b[((int) l4) - 58912] & 0xff) != 1) { break L5; }
     L6: {
      L7: {
       if (((l7 = Words.get32(b, ((int) l4) - 58904)) + -2048) + Integer.MIN_VALUE > -2147420161) { break L7; }
       final int t8 = b[((int) ((l0 = ((((l7 = (((l7 >>> 12) | ((l7 << 2) & 16128)) | ((l7 << 16) & 4128768)) | 8421600) & 0xffffffffL) * 953497L) >>> 22L) & 1016L) + 66857L)) - 58912] & 0xff;
       final int t9 = l7 = (Words.get32(b, State.far((int) l0, 66852)) != l7) ? 1 : 0;
       l1 = t9 != 0 ? 0 : t8;
       l8 = l7 | ((((b[((int) (l0 + 66856L)) - 58912] & 0xff) & 255) != 1) ? 1 : 0);
       break L6;
      }
      final int t10 = l7 = l7 + -48;
      final int t11 = (l7 + Integer.MIN_VALUE < -2147483638) ? 1 : 0;
      l1 = t11 != 0 ? t10 : 0;
      l8 = 1;
     }
     l7 = 1;
     L12: {
      L13: {
       L14: {
        switch (l6) {
        case 1: break L14;
        case 2: break L13;
        default: break L12;
        }
       }
       l7 = ((l5 & 255) != 0) ? 1 : 0;
       break L12;
      }
      l7 = 0;
     }
     l7 = l7 & (l8 | (((l1 & 255) == 1) ? 1 : 0));
     break L1;
    }
    L15: {
     switch (l6) {
     case 1: break L2;
     case 2: break L15;
     default: break L1;
     }
    }
    l7 = 0;
    break L1;
   }
   throw State.trap();
  }
  l7 = ((l5 & 255) != 0) ? 1 : 0;
 }
 m.g0 = l4 + 32L;
 return l7;
}

static void f105(State m, long l0, long l1, long l2) {
 final byte[] b = m.bytes;
 long l3 = 0;
 long l4 = 0;
 long l5 = 0;
 long l6 = 0;
 long l7 = 0;
 int l8 = 0;
 int l9 = 0;
 int l10 = 0;
 int l11 = 0;
 L1: {
  L2: {
   L3: {
    if (m.g0 < 16L) { break L3; }
    if (l2 == 0L) { break L2; }
    L4: while (true) {
     l3 = l2;
     L5: {
      L6: {
       if ((l8 = (int) b[((int) (l4 = l1)) - 58912]) <= -1) { break L6; }
       l5 = 1L;
       break L5;
      }
      L7: {
       if (l8 + Integer.MIN_VALUE >= 2147483616) { break L7; }
       l5 = 2L;
       break L5;
      }
      l5 = (l8 + Integer.MIN_VALUE < 2147483632) ? 3L : 4L;
     }
     l2 = l3 - l5;
     l1 = l4 + l5;
     l6 = l3;
     l5 = l4;
     L8: while (true) {
      l8 = (l9 = (int) b[((int) l5) - 58912]) & 255;
      l7 = 1L;
      L9: {
       if (l9 > -1) { break L9; }
       l10 = (b[((int) l5) - 58911] & 0xff) & 63;
       L10: {
        if (l9 + Integer.MIN_VALUE > 2147483615) { break L10; }
        l8 = ((l8 << 6) & 1984) | l10;
        l7 = 2L;
        break L9;
       }
       l11 = (b[((int) l5) - 58910] & 0xff) & 63;
       L11: {
        if (l9 + Integer.MIN_VALUE > 2147483631) { break L11; }
        l8 = ((l10 << 6) | ((l8 << 12) & 61440)) | l11;
        l7 = 3L;
        break L9;
       }
       l8 = ((l11 << 6) | ((l10 << 12) | ((l8 << 18) & 1835008))) | ((b[((int) l5) - 58909] & 0xff) & 63);
       l7 = 4L;
      }
      L12: {
       L13: {
        L14: {
         if (l8 > 27490) { break L14; }
         L15: {
          if (l8 > 20805) { break L15; }
          L16: {
           if (l8 > 20190) { break L16; }
           L17: {
            switch (l8 + -20140) {
            case 0: case 19: break L13;
            case 1: case 2: case 3: case 4: case 5: case 6: case 7: case 8: case 9: case 10: case 11: case 12: case 13: case 14: case 15: case 16: case 17: case 18: break L12;
            default: break L17;
            }
           }
           if (l8 == 19975) { break L13; }
           break L12;
          }
          if (l8 == 20191) { break L13; }
          if (l8 == 20336) { break L13; }
          if (l8 != 20740) { break L12; }
          break L13;
         }
         L18: {
          if (l8 > 22418) { break L18; }
          if (l8 == 20806) { break L13; }
          if (l8 != 21315) { break L12; }
          break L13;
         }
         if (l8 == 22419) { break L13; }
         if (l8 == 26497) { break L13; }
         if (l8 != 26997) { break L12; }
         break L13;
        }
        L19: {
         if (l8 > 30333) { break L19; }
         L20: {
          if (l8 > 28070) { break L20; }
          if (l8 == 27491) { break L13; }
          if (l8 != 27807) { break L12; }
          break L13;
         }
         if (l8 == 28071) { break L13; }
         if (l8 == 28317) { break L13; }
         if (l8 != 28567) { break L12; }
         break L13;
        }
        L21: {
         if (l8 > 33835) { break L21; }
         if (l8 == 30334) { break L13; }
         if (l8 == 31213) { break L13; }
         if (l8 != 31344) { break L12; }
         break L13;
        }
        if (l8 == 33836) { break L13; }
        if (l8 == 36733) { break L13; }
        if (l8 != 36617) { break L12; }
       }
       l5 = l5 + l7;
       if ((l6 = l6 - l7) != 0L) { continue L8; }
       break L1;
      }
      break L8;
     }
     if (l2 == 0L) { break L2; }
     continue L4;
    }
   }
   throw State.trap();
  }
  l4 = l1;
  l3 = 0L;
 }
 Words.put64(b, ((int) l0) - 58904, l3);
 Words.put64(b, ((int) l0) - 58912, l4);
}

static int f106(State m, long l0, long l1, long l2, int l3, int l4, long l5, long l6, long l7) {
 final byte[] b = m.bytes;
 long l8 = 0;
 long l9 = 0;
 long l10 = 0;
 long l11 = 0;
 long l12 = 0;
 long l13 = 0;
 long l14 = 0;
 int l15 = 0;
 int l16 = 0;
 L1: {
  if ((l8 = m.g0) < 16L) { break L1; }
  l9 = l1;
  l10 = l0;
  L2: {
   L3: {
    L4: {
     L5: {
      if (l1 + Long.MIN_VALUE < -9223372036854775804L) { break L5; }
      l10 = l0;
      l9 = l1;
      L6: while (true) {
       if (((Words.get32(b, ((int) l10) - 58912) + 16776990) & 12632312) != 8421376) { break L4; }
       l10 = l10 + 3L;
       if ((l9 = l9 + -3L) + Long.MIN_VALUE > -9223372036854775805L) { continue L6; }
       break L6;
      }
     }
     if (l9 + Long.MIN_VALUE > -9223372036854775805L) { break L4; }
     L7: {
      switch ((int) l9) {
      case 1: case 2: break L4;
      case 3: break L7;
      default: break L2;
      }
     }
     if (((((Words.get16(b, ((int) l10) - 58912) & 0xffff) | ((b[((int) (l10 + 2L)) - 58912] & 0xff) << 16)) + 16776990) & 12632312) == 8421376) { break L2; }
     if (!(l1 == 0L)) { break L3; }
     break L2;
    }
    if (l1 == 0L) { break L2; }
   }
   l11 = l0;
   l10 = l1;
   L8: while (true) {
    L9: {
     L10: {
      if (l10 + Long.MIN_VALUE < -9223372036854775804L) { break L10; }
      l15 = Words.get32(b, ((int) l11) - 58912);
      break L9;
     }
     L11: {
      L12: {
       if ((l9 = l10 + -1L) + Long.MIN_VALUE > -9223372036854775806L) { break L12; }
       L13: {
        switch ((int) l9) {
        case 1: break L12;
        case 2: break L11;
        default: break L13;
        }
       }
       l15 = b[((int) l11) - 58912] & 0xff;
       break L9;
      }
      l15 = Words.get16(b, ((int) l11) - 58912) & 0xffff;
      break L9;
     }
     l15 = (Words.get16(b, ((int) l11) - 58912) & 0xffff) | ((b[((int) (l11 + 2L)) - 58912] & 0xff) << 16);
    }
    l9 = 3L;
    L14: {
     if (((l15 + 16776990) & 12632312) == 8421376) { break L14; }
     L15: {
      L16: {
       L17: {
        if ((l15 & -2139062144) == 0) { break L17; }
        if ((l15 & 128) != 0) { break L16; }
        final long t18 = ((l15 & 8388608) != 0) ? 2L : 3L;
        final int t19 = l15 & 32768;
        l12 = t19 != 0 ? 1L : t18;
        break L15;
       }
       l12 = 4L;
       if (l10 + Long.MIN_VALUE < -9223372036854775800L) { break L15; }
       if ((Words.get64(b, ((int) l11) - 58912) & -9187201950435737472L) != 0L) { break L15; }
       L20: {
        if (l10 + Long.MIN_VALUE >= -9223372036854775784L) { break L20; }
        l9 = 8L;
        break L14;
       }
       l13 = l10 + -16L;
       l9 = 8L;
       L21: {
        L22: while (true) {
         if (l13 + Long.MIN_VALUE < -9223372036854775800L) { break L21; }
         if (((Words.get64(b, ((int) ((l14 = l11 + l9) + 8L)) - 58912) | Words.get64(b, ((int) l14) - 58912)) & -9187201950435737472L) != 0L) { break L21; }
         l9 = l9 + 16L;
         l14 = l13 + -8L;
         l13 = l13 + -16L;
         if (l14 + Long.MIN_VALUE > -9223372036854775793L) { continue L22; }
         break L22;
        }
       }
       if (l9 == 0L) { break L15; }
       break L14;
      }
      L23: {
       L24: {
        if ((l15 & 224) == 224) { break L24; }
        if ((l15 & 49376) != 32960) { break L23; }
        if ((l15 & 222) + Integer.MIN_VALUE <= -2147483455) { break L23; }
        l9 = 2L;
        break L14;
       }
       L25: {
        if ((l15 & 12632304) != 8421600) { break L25; }
        if ((l16 = l15 & 8431) == 8429) { break L25; }
        if (l16 != 224) { break L14; }
       }
       if ((l15 & -1061109760) != -2139062272) { break L23; }
       if (((((l15 >>> 8) & 240) + ((l15 << 6) & 16320)) + -15504) + Integer.MIN_VALUE >= -2147483392) { break L23; }
       l9 = 4L;
       break L14;
      }
      Words.put64(b, ((int) l7) - 58912, 0L);
      m.g0 = l8;
      return 5;
     }
     l9 = (l10 + Long.MIN_VALUE < l12 + Long.MIN_VALUE) ? l10 : l12;
    }
    l11 = l11 + l9;
    if ((l10 = l10 - l9) != 0L) { continue L8; }
    break L8;
   }
  }
  l15 = f107(m, l0, l1, l2, l3, l4, l5, l6, l7);
  m.g0 = l8;
  final int t26 = l15;
  return t26;
 }
 throw State.trap();
}

static int f107_1(State m, long l0, long l1, long l8, long l9, long l11, long l12, long l13, long l15, long l17, int l19, int l20, int l22, int l23, int l24) {
 final byte[] b = m.bytes;
 int exit = 0;
 PART: {
  L63: {
   L64: {
    L65: {
     L66: {
      L67: {
       L68: {
        L69: {
         L70: {
          L71: {
           L72: {
            L73: {
             L74: {
              if (l15 + Long.MIN_VALUE < -9223372036854775805L) { break L74; }
              if (((l22 = b[((int) ((l11 = l0 + l15) + -3L)) - 58912] & 0xff) & 240) != 224) { break L73; }
              l19 = (((l22 << 12) | (l23 = b[((int) (l11 + -1L)) - 58912] & 0xff)) + ((l20 = b[((int) (l11 + -2L)) - 58912] & 0xff) << 6)) + -925824;
              l11 = l15 + -3L;
              if (Words.get32(b, ((int) ((l12 = ((((l22 = ((l20 << 8) | (l23 << 16)) | l22) & 0xffffffffL) * 953497L) >>> 22L) & 1016L) + 66852L)) - 58912) == l22) { break L72; }
              break L70;
             }
             if (l1 != l8) { break L73; }
             l23 = 0;
             l12 = l1;
             l22 = 0;
             break L63;
            }
            l23 = 0;
            if ((l19 = (int) b[((int) (l0 + (l11 = l15 + -1L))) - 58912]) >= 0) { break L71; }
            l11 = -2L;
            L75: {
             if ((b[((int) ((l12 = l0 + l15) + -2L)) - 58912] & 0xff) + Integer.MIN_VALUE > -2147483457) { break L75; }
             l11 = ((b[((int) (l12 + -3L)) - 58912] & 0xff) + Integer.MIN_VALUE > -2147483457) ? -3L : -4L;
            }
            l19 = (l22 = (int) b[((int) (l12 = l0 + (l11 = l11 + l15))) - 58912]) & 255;
            if (l22 > -1) { break L71; }
            l20 = (b[((int) l12) - 58911] & 0xff) & 63;
            L76: {
             if (l22 + Integer.MIN_VALUE > 2147483615) { break L76; }
             l19 = ((l19 << 6) & 1984) | l20;
             break L71;
            }
            l24 = (b[((int) l12) - 58910] & 0xff) & 63;
            L77: {
             L78: {
              if (l22 + Integer.MIN_VALUE > 2147483631) { break L78; }
              l19 = ((l20 << 6) | ((l19 << 12) & 61440)) | l24;
              break L77;
             }
             l19 = ((l24 << 6) | ((l20 << 12) | ((l19 << 18) & 1835008))) | ((b[((int) l12) - 58909] & 0xff) & 63);
            }
            if ((l19 + -2048) + Integer.MIN_VALUE > -2147420161) { break L71; }
            if (Words.get32(b, ((int) ((l12 = ((((l22 = (((l19 >>> 12) | ((l19 << 2) & 16128)) | ((l19 << 16) & 4128768)) | 8421600) & 0xffffffffL) * 953497L) >>> 22L) & 1016L) + 66852L)) - 58912) != l22) { break L69; }
           }
           if ((b[((int) (l12 + 66856L)) - 58912] & 0xff) != 0) { break L70; }
           break L66;
          }
          if ((l19 + -48) + Integer.MIN_VALUE >= -2147483638) { break L70; }
          l22 = 1;
          break L64;
         }
         if (l19 + Integer.MIN_VALUE > -2147483521) { break L69; }
         l22 = 1;
         l23 = 0;
         if (l19 == 95) { break L64; }
         if ((l19 + -44) + Integer.MIN_VALUE < -2147483645) { break L67; }
         if ((l19 + -48) + Integer.MIN_VALUE < -2147483638) { break L64; }
         l12 = l8;
         if (((l19 & 95) + -65) + Integer.MIN_VALUE >= -2147483622) { break L68; }
         break L63;
        }
        l22 = 0;
        l23 = 1;
        L79: {
         L80: {
          if (l19 > 24185) { break L80; }
          L81: {
           if (l19 > 21316) { break L81; }
           L82: {
            if (l19 > 20959) { break L82; }
            if (l19 == 20313) { break L68; }
            if (l19 != 20358) { break L79; }
            break L68;
           }
           l12 = l8;
           if (l19 == 20960) { break L63; }
           if (l19 != 20986) { break L79; }
           break L68;
          }
          L83: {
           switch (l19 + -21317) {
           case 0: case 7: break L66;
           case 1: case 2: case 3: case 4: case 5: case 6: break L79;
           default: break L83;
           }
          }
          if (l19 == 22810) { break L68; }
          if (l19 != 22909) { break L79; }
          break L68;
         }
         L84: {
          if (l19 > 26468) { break L84; }
          l12 = l8;
          L85: {
           switch (l19 + -24186) {
           case 0: break L66;
           case 1: case 2: case 3: break L79;
           case 4: break L63;
           default: break L85;
           }
          }
          l12 = l8;
          L86: {
           switch (l19 + -25968) {
           case 0: case 8: break L63;
           case 1: case 2: case 3: case 4: case 5: case 6: case 7: break L79;
           default: break L86;
           }
          }
          if (l19 == 24319) { break L66; }
          break L79;
         }
         L87: {
          if (l19 > 39191) { break L87; }
          if (l19 == 26469) { break L68; }
          if (l19 != 28857) { break L79; }
          break L67;
         }
         if (l19 == 39192) { break L68; }
         if (l19 == 40670) { break L67; }
        }
        if ((l19 + -65296) + Integer.MIN_VALUE <= -2147483639) { break L66; }
       }
       l23 = 0;
       l12 = l8;
       l22 = 0;
       break L63;
      }
      Words.put64(b, ((int) l9) - 58872, 0L);
      Words.put64(b, ((int) l9) - 58880, 0L);
      Words.put64(b, ((int) l9) - 58888, 0L);
      Words.put64(b, ((int) l9) - 58896, 0L);
      L88: {
       L89: {
        L90: {
         L91: {
          L92: {
           L93: {
            if (l11 + Long.MIN_VALUE < -9223372036854775805L) { break L93; }
            if (((l19 = b[((int) ((l12 = l0 + l11) + -3L)) - 58912] & 0xff) & 240) != 224) { break L92; }
            Words.put64(b, ((int) l9) - 58880, l0);
            Words.put64(b, ((int) l9) - 58896, 1L);
            Words.put64(b, ((int) l9) - 58872, l11 + -3L);
            Words.put32(b, ((int) l9) - 58888, (((l19 << 12) | (l22 = b[((int) (l12 + -1L)) - 58912] & 0xff)) + ((l23 = b[((int) (l12 + -2L)) - 58912] & 0xff) << 6)) + -925824);
            final int t94 = (int) l9;
            final int t95 = b[((int) ((l11 = ((((l19 = ((l23 << 8) | (l22 << 16)) | l19) & 0xffffffffL) * 953497L) >>> 22L) & 1016L) + 66857L)) - 58912] & 0xff;
            final int t96 = l19 = (Words.get32(b, State.far((int) l11, 66852)) == l19) ? 1 : 0;
            b[t94 - 58883] = (byte) (t96 != 0 ? t95 : 0);
            final int t97 = (int) l9;
            final int t98 = b[((int) (l11 + 66856L)) - 58912] & 0xff;
            final int t99 = l19;
            b[t97 - 58884] = (byte) (t99 != 0 ? t98 : 2);
            break L88;
           }
           if (l11 == 0L) { break L91; }
          }
          if ((l19 = (int) b[((int) (l0 + (l12 = l11 + -1L))) - 58912]) >= 0) { break L90; }
          l12 = -2L;
          L100: {
           if ((b[((int) ((l17 = l0 + l11) + -2L)) - 58912] & 0xff) + Integer.MIN_VALUE > -2147483457) { break L100; }
           l12 = ((b[((int) (l17 + -3L)) - 58912] & 0xff) + Integer.MIN_VALUE > -2147483457) ? -3L : -4L;
          }
          l19 = (l22 = (int) b[((int) (l11 = l0 + (l12 = l12 + l11))) - 58912]) & 255;
          if (l22 > -1) { break L90; }
          l23 = (b[((int) l11) - 58911] & 0xff) & 63;
          L101: {
           if (l22 + Integer.MIN_VALUE > 2147483615) { break L101; }
           l19 = ((l19 << 6) & 1984) | l23;
           break L90;
          }
          l20 = (b[((int) l11) - 58910] & 0xff) & 63;
          L102: {
           L103: {
            if (l22 + Integer.MIN_VALUE > 2147483631) { break L103; }
            l19 = ((l23 << 6) | ((l19 << 12) & 61440)) | l20;
            break L102;
           }
           l19 = ((l20 << 6) | ((l23 << 12) | ((l19 << 18) & 1835008))) | ((b[((int) l11) - 58909] & 0xff) & 63);
          }
          if ((l19 + -2048) + Integer.MIN_VALUE > -2147420161) { break L90; }
          final int t104 = b[((int) ((l11 = ((((l22 = (((l19 >>> 12) | ((l19 << 2) & 16128)) | ((l19 << 16) & 4128768)) | 8421600) & 0xffffffffL) * 953497L) >>> 22L) & 1016L) + 66857L)) - 58912] & 0xff;
          final int t105 = l23 = (Words.get32(b, State.far((int) l11, 66852)) == l22) ? 1 : 0;
          l22 = t105 != 0 ? t104 : 0;
          final int t106 = b[((int) (l11 + 66856L)) - 58912] & 0xff;
          final int t107 = l23;
          l23 = t107 != 0 ? t106 : 2;
          break L89;
         }
         Words.put64(b, ((int) l13) - 58912, 0L);
         Words.put64(b, ((int) l13) - 58904, 0L);
         Words.put64(b, ((int) l9) - 58890, 0L);
         Words.put64(b, ((int) l9) - 58896, 0L);
         break L88;
        }
        final int t108 = l22 = l19 + -48;
        final int t109 = l23 = (l22 + Integer.MIN_VALUE < -2147483638) ? 1 : 0;
        l22 = t109 != 0 ? t108 : 0;
        l23 = l23 != 0 ? 0 : 2;
       }
       Words.put64(b, ((int) l9) - 58872, l12);
       Words.put64(b, ((int) l9) - 58880, l0);
       b[((int) l9) - 58883] = (byte) l22;
       b[((int) l9) - 58884] = (byte) l23;
       Words.put32(b, ((int) l9) - 58888, l19);
       Words.put64(b, ((int) l9) - 58896, 1L);
      }
      l22 = f110(m, l9 + 16L);
      break L65;
     }
     l22 = 1;
    }
    l23 = 0;
   }
   l12 = l8;
  }
 }
 m.kept[0] = l11;
 m.kept[1] = l12;
 m.kept[2] = l17;
 m.kept[3] = l19;
 m.kept[4] = l20;
 m.kept[5] = l22;
 m.kept[6] = l23;
 m.kept[7] = l24;
 return exit;
}

static int f107_2(State m, long l9, long l11, long l13, long l14, long l16, long l17, long l18, int l19, int l20, int l21, int l24) {
 final byte[] b = m.bytes;
 int exit = 0;
 PART: {
  L111: {
   L112: {
    L113: {
     L114: {
      L115: {
       L116: {
        L117: {
         L118: {
          L119: {
           L120: {
            if (l21 != 0) { break L120; }
            if (((l19 = b[((int) l14) - 58912] & 0xff) & 240) != 224) { break L119; }
            l20 = (((l21 = b[((int) l14) - 58911] & 0xff) << 8) | ((l24 = b[((int) l14) - 58910] & 0xff) << 16)) | l19;
            l19 = (((l19 << 12) | l24) + (l21 << 6)) + -925824;
            l17 = l16 + -3L;
            l11 = l14 + 3L;
            if (l20 != Words.get32(b, ((int) ((l18 = (((l20 & 0xffffffffL) * 953497L) >>> 22L) & 1016L) + 66852L)) - 58912)) { break L117; }
            break L118;
           }
           if (l16 == 0L) { break L112; }
           l19 = b[((int) l14) - 58912] & 0xff;
          }
          l11 = 1L;
          L121: {
           if (((int) (byte) l19) > -1) { break L121; }
           l20 = (b[((int) l14) - 58911] & 0xff) & 63;
           L122: {
            if (l19 + Integer.MIN_VALUE > -2147483425) { break L122; }
            l19 = ((l19 << 6) & 1984) | l20;
            l11 = 2L;
            break L121;
           }
           l21 = (b[((int) l14) - 58910] & 0xff) & 63;
           L123: {
            if (l19 + Integer.MIN_VALUE > -2147483409) { break L123; }
            l19 = ((l20 << 6) | ((l19 << 12) & 61440)) | l21;
            l11 = 3L;
            break L121;
           }
           l19 = ((l21 << 6) | ((l20 << 12) | ((l19 << 18) & 1835008))) | ((b[((int) l14) - 58909] & 0xff) & 63);
           l11 = 4L;
          }
          l17 = l16 - l11;
          l11 = l14 + l11;
          L124: {
           if ((l19 + -2048) + Integer.MIN_VALUE > -2147420161) { break L124; }
           if (Words.get32(b, ((int) ((l18 = ((((l20 = (((l19 >>> 12) | ((l19 << 2) & 16128)) | ((l19 << 16) & 4128768)) | 8421600) & 0xffffffffL) * 953497L) >>> 22L) & 1016L) + 66852L)) - 58912) == l20) { break L118; }
           break L116;
          }
          if ((l19 + -48) + Integer.MIN_VALUE >= -2147483638) { break L117; }
          break L114;
         }
         if ((b[((int) (l18 + 66856L)) - 58912] & 0xff) == 0) { break L114; }
        }
        if (l19 + Integer.MIN_VALUE > -2147483521) { break L116; }
        l21 = 1;
        l20 = 0;
        if (l19 == 95) { break L111; }
        if ((l19 + -44) + Integer.MIN_VALUE < -2147483645) { break L115; }
        if ((l19 + -48) + Integer.MIN_VALUE < -2147483638) { break L111; }
        if (((l19 & 95) + -65) + Integer.MIN_VALUE >= -2147483622) { break L112; }
        break L111;
       }
       l21 = 0;
       l20 = 1;
       L125: {
        L126: {
         if (l19 > 24185) { break L126; }
         L127: {
          L128: {
           if (l19 > 21316) { break L128; }
           L129: {
            if (l19 > 20959) { break L129; }
            if (l19 == 20313) { break L111; }
            if (l19 != 20358) { break L125; }
            break L111;
           }
           if (l19 == 20960) { break L111; }
           if (l19 == 20986) { break L127; }
           break L125;
          }
          L130: {
           switch (l19 + -21317) {
           case 0: case 7: break L114;
           case 1: case 2: case 3: case 4: case 5: case 6: break L125;
           default: break L130;
           }
          }
          if (l19 == 22810) { break L111; }
          if (l19 != 22909) { break L125; }
         }
         l20 = f111(m, l19, l11, l17);
         break L111;
        }
        L131: {
         if (l19 > 26468) { break L131; }
         L132: {
          switch (l19 + -24186) {
          case 0: break L114;
          case 1: case 2: case 3: break L125;
          case 4: break L111;
          default: break L132;
          }
         }
         L133: {
          switch (l19 + -25968) {
          case 0: case 8: break L112;
          case 1: case 2: case 3: case 4: case 5: case 6: case 7: break L125;
          default: break L133;
          }
         }
         if (l19 == 24319) { break L114; }
         break L125;
        }
        L134: {
         if (l19 > 39191) { break L134; }
         if (l19 == 26469) { break L111; }
         if (l19 != 28857) { break L125; }
         break L115;
        }
        if (l19 == 39192) { break L111; }
        if (l19 == 40670) { break L115; }
       }
       if ((l19 + -65296) + Integer.MIN_VALUE > -2147483639) { break L112; }
       break L114;
      }
      Words.put64(b, ((int) l9) - 58872, 0L);
      Words.put64(b, ((int) l9) - 58880, 0L);
      Words.put64(b, ((int) l9) - 58888, 0L);
      Words.put64(b, ((int) l9) - 58896, 0L);
      L135: {
       L136: {
        L137: {
         L138: {
          if (l17 + Long.MIN_VALUE < -9223372036854775805L) { break L138; }
          if (((l19 = b[((int) l11) - 58912] & 0xff) & 240) != 224) { break L137; }
          l20 = b[((int) l11) - 58910] & 0xff;
          l21 = b[((int) l11) - 58911] & 0xff;
          Words.put64(b, ((int) l9) - 58872, l17 + -3L);
          Words.put64(b, ((int) l9) - 58880, l11 + 3L);
          Words.put64(b, ((int) l9) - 58896, 1L);
          Words.put32(b, ((int) l9) - 58888, ((l20 | (l19 << 12)) + (l21 << 6)) + -925824);
          final int t139 = (int) l9;
          final int t140 = b[((int) ((l11 = ((((l19 = ((l21 << 8) | (l20 << 16)) | l19) & 0xffffffffL) * 953497L) >>> 22L) & 1016L) + 66857L)) - 58912] & 0xff;
          final int t141 = l19 = (Words.get32(b, State.far((int) l11, 66852)) == l19) ? 1 : 0;
          b[t139 - 58883] = (byte) (t141 != 0 ? t140 : 0);
          final int t142 = (int) l9;
          final int t143 = b[((int) (l11 + 66856L)) - 58912] & 0xff;
          final int t144 = l19;
          b[t142 - 58884] = (byte) (t144 != 0 ? t143 : 2);
          break L135;
         }
         if (l17 == 0L) { break L136; }
         l19 = b[((int) l11) - 58912] & 0xff;
        }
        l18 = 1L;
        L145: {
         if (((int) (byte) l19) > -1) { break L145; }
         l20 = (b[((int) l11) - 58911] & 0xff) & 63;
         L146: {
          if (l19 + Integer.MIN_VALUE > -2147483425) { break L146; }
          l19 = ((l19 << 6) & 1984) | l20;
          l18 = 2L;
          break L145;
         }
         l21 = (b[((int) l11) - 58910] & 0xff) & 63;
         L147: {
          if (l19 + Integer.MIN_VALUE > -2147483409) { break L147; }
          l19 = ((l20 << 6) | ((l19 << 12) & 61440)) | l21;
          l18 = 3L;
          break L145;
         }
         l19 = ((l21 << 6) | ((l20 << 12) | ((l19 << 18) & 1835008))) | ((b[((int) l11) - 58909] & 0xff) & 63);
         l18 = 4L;
        }
        l17 = l17 - l18;
        l11 = l11 + l18;
        L148: {
         L149: {
          if ((l19 + -2048) + Integer.MIN_VALUE > -2147420161) { break L149; }
          final int t150 = b[((int) ((l18 = ((((l20 = (((l19 >>> 12) | ((l19 << 2) & 16128)) | ((l19 << 16) & 4128768)) | 8421600) & 0xffffffffL) * 953497L) >>> 22L) & 1016L) + 66857L)) - 58912] & 0xff;
          final int t151 = l21 = (Words.get32(b, State.far((int) l18, 66852)) == l20) ? 1 : 0;
          l20 = t151 != 0 ? t150 : 0;
          final int t152 = b[((int) (l18 + 66856L)) - 58912] & 0xff;
          final int t153 = l21;
          l21 = t153 != 0 ? t152 : 2;
          break L148;
         }
         final int t154 = l20 = l19 + -48;
         final int t155 = l21 = (l20 + Integer.MIN_VALUE < -2147483638) ? 1 : 0;
         l20 = t155 != 0 ? t154 : 0;
         l21 = l21 != 0 ? 0 : 2;
        }
        Words.put64(b, ((int) l9) - 58872, l17);
        Words.put64(b, ((int) l9) - 58880, l11);
        b[((int) l9) - 58883] = (byte) l20;
        b[((int) l9) - 58884] = (byte) l21;
        Words.put32(b, ((int) l9) - 58888, l19);
        Words.put64(b, ((int) l9) - 58896, 1L);
        break L135;
       }
       Words.put64(b, ((int) l13) - 58912, 0L);
       Words.put64(b, ((int) l13) - 58904, 0L);
       Words.put64(b, ((int) l9) - 58890, 0L);
       Words.put64(b, ((int) l9) - 58896, 0L);
      }
      l21 = f112(m, l9 + 16L);
      break L113;
     }
     l21 = 1;
    }
    l20 = 0;
    break L111;
   }
   l20 = 0;
   l21 = 0;
  }
 }
 m.kept[0] = l11;
 m.kept[1] = l17;
 m.kept[2] = l18;
 m.kept[3] = l19;
 m.kept[4] = l20;
 m.kept[5] = l21;
 m.kept[6] = l24;
 return exit;
}

static int f107(State m, long l0, long l1, long l2, int l3, int l4, long l5, long l6, long l7) {
 final byte[] b = m.bytes;
 long l8 = 0;
 long l9 = 0;
 long l10 = 0;
 long l11 = 0;
 long l12 = 0;
 long l13 = 0;
 long l14 = 0;
 long l15 = 0;
 long l16 = 0;
 long l17 = 0;
 long l18 = 0;
 int l19 = 0;
 int l20 = 0;
 int l21 = 0;
 int l22 = 0;
 int l23 = 0;
 int l24 = 0;
 m.g0 = l8 = m.g0 - 48L;
 L1: {
  if ((l9 = l8) < 16L) { break L1; }
  L2: {
   L3: {
    if (l1 == l2) { break L3; }
    l19 = 5;
    l10 = 0L;
    if (l1 + Long.MIN_VALUE < l2 + Long.MIN_VALUE) { break L2; }
    if (((int) b[((int) (l0 + l2)) - 58912]) < -64) { break L2; }
   }
   l19 = 0;
   l10 = 0L;
   L4: {
    if (!((l11 = l1 - l2) == 0L)) { break L4; }
    l19 = 0;
    break L2;
   }
   if (l6 == 0L) { break L2; }
   l12 = l0 + l2;
   l13 = l9 + 32L;
   l10 = 0L;
   L5: while (true) {
    l2 = l12;
    L6: {
     L7: {
      L8: {
       L9: {
        L10: {
         L11: {
          L12: {
           if ((l8 = l11) + Long.MIN_VALUE < -9223372036854775805L) { break L12; }
           if (((l19 = b[((int) l2) - 58912] & 0xff) & 240) != 224) { break L11; }
           final int t13 = b[((int) ((l14 = ((((l22 = (((l20 = b[((int) l2) - 58911] & 0xff) << 8) | ((l21 = b[((int) l2) - 58910] & 0xff) << 16)) | l19) & 0xffffffffL) * 953497L) >>> 22L) & 1016L) + 66857L)) - 58912] & 0xff;
           final int t14 = l22 = (Words.get32(b, State.far((int) l14, 66852)) == l22) ? 1 : 0;
           l23 = t14 != 0 ? t13 : 0;
           l11 = l8 + -3L;
           l12 = l2 + 3L;
           L15: {
            L16: {
             final int t17 = b[((int) (l14 + 66856L)) - 58912] & 0xff;
             final int t18 = l22;
             switch ((int) (((l22 = t18 != 0 ? t17 : 2) & 0xffffffffL) & 255L)) {
             case 1: break L16;
             case 2: continue L5;
             default: break L15;
             }
            }
            if ((l4 & 255) + Integer.MIN_VALUE < (l23 & 255) + Integer.MIN_VALUE) { continue L5; }
           }
           l19 = ((l19 << 12) | l21) + (l20 << 6);
           L19: {
            if (l3 != 0) { break L19; }
            L20: {
             L21: {
              if (l19 > 955413) { break L21; }
              L22: {
               if (l19 > 948600) { break L22; }
               if (l19 == 946015) { continue L5; }
               if (l19 == 946061) { continue L5; }
               if (l19 == 946160) { continue L5; }
               break L20;
              }
              L23: {
               if (l19 > 951243) { break L23; }
               if (l19 == 948601) { continue L5; }
               if (l19 == 951166) { continue L5; }
               break L20;
              }
              if (l19 == 951244) { continue L5; }
              if (l19 == 952402) { continue L5; }
              break L20;
             }
             L24: {
              if (l19 > 961967) { break L24; }
              L25: {
               switch (l19 + -961838) {
               case 0: case 5: continue L5;
               case 1: case 2: case 3: case 4: break L20;
               default: break L25;
               }
              }
              if (l19 == 955414) { continue L5; }
              if (l19 == 958726) { continue L5; }
              break L20;
             }
             if (l19 == 961968) { continue L5; }
             if (l19 == 964294) { continue L5; }
             if (l19 == 964344) { continue L5; }
            }
            if ((l19 + -947265) + Integer.MIN_VALUE < -2147483644) { continue L5; }
           }
           if ((l22 & 255) != 1) { break L10; }
           if ((l22 = l23 & 255) == 0) { break L8; }
           if (l22 != 6) { break L9; }
           if (f108(m, l12, l11) != 0) { continue L5; }
           l19 = l19 + -925824;
           break L6;
          }
          L26: {
           if (!(l8 == 0L)) { break L26; }
           l19 = 0;
           break L2;
          }
          l19 = b[((int) l2) - 58912] & 0xff;
         }
         l12 = 1L;
         L27: {
          if (((int) (byte) l19) > -1) { break L27; }
          l22 = (b[((int) l2) - 58911] & 0xff) & 63;
          L28: {
           if (l19 + Integer.MIN_VALUE > -2147483425) { break L28; }
           l19 = ((l19 << 6) & 1984) | l22;
           l12 = 2L;
           break L27;
          }
          l23 = (b[((int) l2) - 58910] & 0xff) & 63;
          L29: {
           if (l19 + Integer.MIN_VALUE > -2147483409) { break L29; }
           l19 = ((l22 << 6) | ((l19 << 12) & 61440)) | l23;
           l12 = 3L;
           break L27;
          }
          l19 = ((l23 << 6) | ((l22 << 12) | ((l19 << 18) & 1835008))) | ((b[((int) l2) - 58909] & 0xff) & 63);
          l12 = 4L;
         }
         l11 = l8 - l12;
         l12 = l2 + l12;
         L30: {
          L31: {
           L32: {
            if ((l19 + -2048) + Integer.MIN_VALUE > -2147420161) { break L32; }
            if (Words.get32(b, State.far((int) (l14 = ((((l22 = (((l19 >>> 12) | ((l19 << 2) & 16128)) | ((l19 << 16) & 4128768)) | 8421600) & 0xffffffffL) * 953497L) >>> 22L) & 1016L), 66852)) != l22) { continue L5; }
            l22 = b[((int) (l14 + 66857L)) - 58912] & 0xff;
            l23 = 0;
            switch ((int) (b[((int) (l14 + 66856L)) - 58912] & 0xffL)) {
            case 1: break L31;
            case 2: continue L5;
            default: break L30;
            }
           }
           if ((l22 = l19 + -48) + Integer.MIN_VALUE >= -2147483638) { continue L5; }
           l23 = 0;
           break L30;
          }
          if ((l4 & 255) + Integer.MIN_VALUE < (l22 & 255) + Integer.MIN_VALUE) { continue L5; }
          l23 = 1;
         }
         L33: {
          if (l3 != 0) { break L33; }
          L34: {
           L35: {
            if (l19 > 29589) { break L35; }
            L36: {
             if (l19 > 22776) { break L36; }
             if (l19 == 20191) { continue L5; }
             if (l19 == 20237) { continue L5; }
             if (l19 == 20336) { continue L5; }
             break L34;
            }
            L37: {
             if (l19 > 25419) { break L37; }
             if (l19 == 22777) { continue L5; }
             if (l19 == 25342) { continue L5; }
             break L34;
            }
            if (l19 == 25420) { continue L5; }
            if (l19 == 26578) { continue L5; }
            break L34;
           }
           L38: {
            if (l19 > 36143) { break L38; }
            L39: {
             switch (l19 + -36014) {
             case 0: case 5: continue L5;
             case 1: case 2: case 3: case 4: break L34;
             default: break L39;
             }
            }
            if (l19 == 29590) { continue L5; }
            if (l19 == 32902) { continue L5; }
            break L34;
           }
           if (l19 == 36144) { continue L5; }
           if (l19 == 38470) { continue L5; }
           if (l19 == 38520) { continue L5; }
          }
          if ((l19 + -21441) + Integer.MIN_VALUE < -2147483644) { continue L5; }
         }
         if (l23 == 0) { break L6; }
         if ((l22 = l22 & 255) == 0) { break L7; }
         if (l22 != 6) { break L6; }
         if (f108(m, l12, l11) != 0) { continue L5; }
         break L6;
        }
        l19 = l19 + -925824;
        break L6;
       }
       l19 = l19 + -925824;
       break L6;
      }
      if (f109(m, l3, l4, l12, l11) == 0) { continue L5; }
      l19 = l19 + -925824;
      break L6;
     }
     if (f109(m, l3, l4, l12, l11) == 0) { continue L5; }
    }
    l15 = l1 - l8;
    L40: {
     L41: while (true) {
      l14 = l12;
      l22 = l19;
      L42: {
       L43: {
        L44: {
         L45: {
          L46: {
           L47: {
            if ((l21 = ((l16 = l11) + Long.MIN_VALUE < -9223372036854775805L) ? 1 : 0) != 0) { break L47; }
            if (((l19 = b[((int) l14) - 58912] & 0xff) & 240) != 224) { break L46; }
            L48: {
             if (Words.get32(b, ((int) ((l17 = ((((l23 = (((l20 = b[((int) l14) - 58911] & 0xff) << 8) | ((l24 = b[((int) l14) - 58910] & 0xff) << 16)) | l19) & 0xffffffffL) * 953497L) >>> 22L) & 1016L) + 66852L)) - 58912) != l23) { break L48; }
             l19 = (((l19 << 12) | l24) + (l20 << 6)) + -925824;
             l11 = l16 + -3L;
             l12 = l14 + 3L;
             break L45;
            }
            l21 = 0;
            break L40;
           }
           L49: {
            if (!(l16 == 0L)) { break L49; }
            l21 = 1;
            break L40;
           }
           l19 = b[((int) l14) - 58912] & 0xff;
          }
          l12 = 1L;
          L50: {
           if (((int) (byte) l19) > -1) { break L50; }
           l23 = (b[((int) l14) - 58911] & 0xff) & 63;
           L51: {
            if (l19 + Integer.MIN_VALUE > -2147483425) { break L51; }
            l19 = ((l19 << 6) & 1984) | l23;
            l12 = 2L;
            break L50;
           }
           l20 = (b[((int) l14) - 58910] & 0xff) & 63;
           L52: {
            if (l19 + Integer.MIN_VALUE > -2147483409) { break L52; }
            l19 = ((l23 << 6) | ((l19 << 12) & 61440)) | l20;
            l12 = 3L;
            break L50;
           }
           l19 = ((l20 << 6) | ((l23 << 12) | ((l19 << 18) & 1835008))) | ((b[((int) l14) - 58909] & 0xff) & 63);
           l12 = 4L;
          }
          l11 = l16 - l12;
          l12 = l14 + l12;
          if ((l19 + -2048) + Integer.MIN_VALUE > -2147420161) { break L44; }
          if (Words.get32(b, ((int) ((l17 = ((((l23 = (((l19 >>> 12) | ((l19 << 2) & 16128)) | ((l19 << 16) & 4128768)) | 8421600) & 0xffffffffL) * 953497L) >>> 22L) & 1016L) + 66852L)) - 58912) != l23) { break L40; }
         }
         l20 = b[((int) (l17 + 66857L)) - 58912] & 0xff;
         l23 = 0;
         switch ((int) (b[((int) (l17 + 66856L)) - 58912] & 0xffL)) {
         case 1: break L43;
         case 2: break L40;
         default: break L42;
         }
        }
        if ((l20 = l19 + -48) + Integer.MIN_VALUE >= -2147483638) { break L40; }
        l23 = 0;
        break L42;
       }
       if ((l4 & 255) + Integer.MIN_VALUE < (l20 & 255) + Integer.MIN_VALUE) { break L40; }
       l23 = 1;
      }
      L53: {
       if (l3 != 0) { break L53; }
       L54: {
        L55: {
         if (l19 > 29589) { break L55; }
         L56: {
          if (l19 > 22776) { break L56; }
          if (l19 == 20191) { break L40; }
          if (l19 == 20237) { break L40; }
          if (l19 != 20336) { break L54; }
          break L40;
         }
         L57: {
          if (l19 > 25419) { break L57; }
          if (l19 == 22777) { break L40; }
          if (l19 != 25342) { break L54; }
          break L40;
         }
         if (l19 == 25420) { break L40; }
         if (l19 != 26578) { break L54; }
         break L40;
        }
        L58: {
         if (l19 > 36143) { break L58; }
         L59: {
          switch (l19 + -36014) {
          case 0: case 5: break L40;
          case 1: case 2: case 3: case 4: break L54;
          default: break L59;
          }
         }
         if (l19 == 29590) { break L40; }
         if (l19 != 32902) { break L54; }
         break L40;
        }
        if (l19 == 36144) { break L40; }
        if (l19 == 38470) { break L40; }
        if (l19 == 38520) { break L40; }
       }
       if ((l19 + -21441) + Integer.MIN_VALUE < -2147483644) { break L40; }
      }
      L60: {
       if (l23 == 0) { break L60; }
       if (((1 << (l23 = l20 & 255)) & 65470) != 0) { break L60; }
       L61: {
        if (l23 == 0) { break L61; }
        if (f108(m, l12, l11) == 0) { break L60; }
        break L40;
       }
       if (f109(m, l3, l4, l12, l11) == 0) { break L40; }
      }
      L62: {
       if ((l22 + -48) + Integer.MIN_VALUE > -2147483639) { break L62; }
       Core2.f63(m, l9 + 8L, l19);
       if ((l19 + -58) + Integer.MIN_VALUE > 2147483637) { break L62; }
       if (((b[((int) l9) - 58904] & 0xff) & 255) == 1) { break L40; }
      }
      if ((l19 + -48) + Integer.MIN_VALUE > -2147483639) { continue L41; }
      Core2.f63(m, l9, l22);
      if ((l22 + -58) + Integer.MIN_VALUE > 2147483637) { continue L41; }
      if (((b[((int) l9) - 58912] & 0xff) & 255) != 1) { continue L41; }
      break L41;
     }
    }
    f107_1(m, l0, l1, l8, l9, l11, l12, l13, l15, l17, l19, l20, l22, l23, l24);
    l11 = m.kept[0];
    l12 = m.kept[1];
    l17 = m.kept[2];
    l19 = (int) m.kept[3];
    l20 = (int) m.kept[4];
    l22 = (int) m.kept[5];
    l23 = (int) m.kept[6];
    l24 = (int) m.kept[7];
    f107_2(m, l9, l11, l13, l14, l16, l17, l18, l19, l20, l21, l24);
    l11 = m.kept[0];
    l17 = m.kept[1];
    l18 = m.kept[2];
    l19 = (int) m.kept[3];
    l20 = (int) m.kept[4];
    l21 = (int) m.kept[5];
    l24 = (int) m.kept[6];
    Words.put32(b, ((int) l9) - 58896, 0);
    l19 = l22 | l21;
    L157: {
     L158: {
      L159: {
       L160: {
        L161: {
         L162: {
          L163: {
           L164: {
            if ((l11 = (l8 = l8 - l16) + -1L) + Long.MIN_VALUE > -9223372036854775806L) { break L164; }
            L165: {
             switch ((int) l11) {
             case 1: break L164;
             case 2: break L165;
             default: break L161;
             }
            }
            if ((l22 = (Words.get32(b, State.far((int) (l11 = ((((l22 = (((b[((int) l2) - 58911] & 0xff) << 8) | (l24 = b[((int) l2) - 58912] & 0xff)) | ((b[((int) l2) - 58910] & 0xff) << 16)) & 0xffffffffL) * 953497L) >>> 22L) & 1016L), 66852)) != l22) ? 1 : 0) != 0) { break L163; }
            l21 = 1;
            final int t166 = b[((int) (l11 + 66856L)) - 58912] & 0xff;
            final int t167 = l22;
            if (((l22 = t167 != 0 ? 0 : t166) & 255) == 2) { break L163; }
            break L160;
           }
           if (l8 + Long.MIN_VALUE > -9223372036854775804L) { break L159; }
           if (l12 == l16) { break L162; }
           l24 = b[((int) l2) - 58912] & 0xff;
          }
          if (((int) (byte) l24) > -1) { break L159; }
         }
         f113(m, l9 + 16L, l2, l8);
         if ((b[((int) l9) - 58896] & 0xff) != 1) { break L159; }
         l21 = b[((int) l9) - 58893] & 0xff;
         l22 = b[((int) l9) - 58895] & 0xff;
         break L160;
        }
        l22 = ((l21 = ((((b[((int) l2) - 58912] & 0xff) + -58) & 255) + Integer.MIN_VALUE < -2147483402) ? 1 : 0) != 0) ? 2 : 0;
       }
       l22 = (l19 != 0 ? 0 : 2) | (((l19 = l22 & 255) == 0) ? 1 : 0);
       l21 = ((l21 & 1) != 0) ? 8 : 0;
       if ((l20 | (l23 & ((l19 == 1) ? 1 : 0))) != 0) { break L158; }
       break L157;
      }
      l22 = f114(m, l2, l8);
      L168: {
       L169: {
        L170: {
         if (l23 == 0) { break L170; }
         if ((l20 | f115(m, l2, l8)) != 0) { break L169; }
         break L168;
        }
        if (l20 == 0) { break L168; }
       }
       l21 = 0;
       l22 = (l19 != 0 ? 0 : 2) | l22;
       break L158;
      }
      l21 = 0;
      l22 = (l19 != 0 ? 0 : 2) | l22;
      if (f116(m, l2, l8) == 0) { break L157; }
     }
     l22 = l22 | 4;
    }
    l19 = 0;
    Words.put32(b, ((int) (l2 = l5 + (l10 * 24L))) - 58892, 0);
    Words.put32(b, ((int) l2) - 58896, l21 | l22);
    Words.put64(b, ((int) l2) - 58904, l1 - l16);
    Words.put64(b, ((int) l2) - 58912, l15);
    if ((l10 = l10 + 1L) + Long.MIN_VALUE >= l6 + Long.MIN_VALUE) { break L2; }
    l11 = l16;
    l12 = l14;
    if (l16 != 0L) { continue L5; }
    break L5;
   }
  }
  Words.put64(b, ((int) l7) - 58912, l10);
  m.g0 = l9 + 48L;
  final int t171 = l19;
  return t171;
 }
 throw State.trap();
}

static int f108(State m, long l0, long l1) {
 final byte[] b = m.bytes;
 int l2 = 0;
 int l3 = 0;
 int l4 = 0;
 int l5 = 0;
 int l6 = 0;
 long l7 = 0;
 L1: {
  L2: {
   L3: {
    L4: {
     L5: {
      if (m.g0 < 16L) { break L5; }
      L6: {
       if (!(l1 == 0L)) { break L6; }
       return 0;
      }
      l3 = (l2 = (int) b[((int) l0) - 58912]) & 255;
      l7 = 1L;
      L7: {
       if (l2 > -1) { break L7; }
       l4 = (b[((int) l0) - 58911] & 0xff) & 63;
       L8: {
        if (l2 + Integer.MIN_VALUE > 2147483615) { break L8; }
        l3 = ((l3 << 6) & 1984) | l4;
        l7 = 2L;
        break L7;
       }
       l5 = (b[((int) l0) - 58910] & 0xff) & 63;
       L9: {
        if (l2 + Integer.MIN_VALUE > 2147483631) { break L9; }
        l3 = ((l4 << 6) | ((l3 << 12) & 61440)) | l5;
        l7 = 3L;
        break L7;
       }
       l3 = ((l5 << 6) | ((l4 << 12) | ((l3 << 18) & 1835008))) | ((b[((int) l0) - 58909] & 0xff) & 63);
       l7 = 4L;
      }
      l2 = 0;
      L10: {
       if (l1 == l7) { break L10; }
       l2 = (l4 = (int) b[((int) (l1 = l0 + l7)) - 58912]) & 255;
       if (l4 > -1) { break L10; }
       l5 = (b[((int) l1) - 58911] & 0xff) & 63;
       L11: {
        if (l4 + Integer.MIN_VALUE > 2147483615) { break L11; }
        l2 = ((l2 << 6) & 1984) | l5;
        break L10;
       }
       l6 = (b[((int) l1) - 58910] & 0xff) & 63;
       L12: {
        if (l4 + Integer.MIN_VALUE > 2147483631) { break L12; }
        l2 = ((l5 << 6) | ((l2 << 12) & 61440)) | l6;
        break L10;
       }
       l2 = ((l6 << 6) | ((l5 << 12) | ((l2 << 18) & 1835008))) | ((b[((int) l1) - 58909] & 0xff) & 63);
      }
      L13: {
       L14: {
        L15: {
         L16: {
          L17: {
           if (l3 > 27430) { break L17; }
           L18: {
            if (l3 > 23531) { break L18; }
            L19: {
             if (l3 > 20300) { break L19; }
             if (l3 == 20047) { break L1; }
             if (l3 != 20239) { break L3; }
             break L1;
            }
            if (l3 == 20301) { break L13; }
            if (l3 == 23383) { break L16; }
            if (l3 != 23485) { break L3; }
            break L2;
           }
           L20: {
            switch (l3 + -24102) {
            case 0: case 16: break L14;
            case 1: case 2: case 3: case 4: case 5: case 6: case 7: case 8: case 9: case 10: case 11: case 12: case 13: case 14: case 15: break L3;
            default: break L20;
            }
           }
           if (l3 == 23532) { break L2; }
           if (l3 != 24085) { break L3; }
           break L1;
          }
          L21: {
           if (l3 > 29925) { break L21; }
           L22: {
            if (l3 > 27603) { break L22; }
            L23: {
             if (l3 == 27431) { break L23; }
             if (l3 != 27472) { break L3; }
            }
            final int t24 = (l2 != 20803) ? 1 : 0;
            return t24;
           }
           if (l3 == 27604) { break L15; }
           if (l3 == 28966) { break L1; }
           break L3;
          }
          L25: {
           if (l3 > 36202) { break L25; }
           if (l3 == 29926) { break L1; }
           if (l3 != 30005) { break L3; }
           break L4;
          }
          if (l3 == 38971) { break L14; }
          if (l3 == 38651) { break L4; }
          if (l3 != 36203) { break L3; }
          break L1;
         }
         final int t26 = ((l2 == 31680) | (l2 == 33410)) ? 1 : 0;
         return t26;
        }
        final int t27 = (l2 == 29305) ? 1 : 0;
        return t27;
       }
       final int t28 = ((l2 == 23485) | (l2 == 23532)) ? 1 : 0;
       return t28;
      }
      final int t29 = ((l2 & 2097143) != 25968) ? 1 : 0;
      return t29;
     }
     throw State.trap();
    }
    final int t30 = (l2 == 23376) ? 1 : 0;
    return t30;
   }
   return 0;
  }
  L31: {
   L32: {
    switch (l2 + -24102) {
    case 0: case 16: break L1;
    case 1: case 2: case 3: case 4: case 5: case 6: case 7: case 8: case 9: case 10: case 11: case 12: case 13: case 14: case 15: break L31;
    default: break L32;
    }
   }
   if (l2 == 38971) { break L1; }
  }
  return 0;
 }
 return 1;
}

static int f109(State m, int l0, int l1, long l2, long l3) {
 final byte[] b = m.bytes;
 long l4 = 0;
 long l5 = 0;
 long l6 = 0;
 int l7 = 0;
 int l8 = 0;
 int l9 = 0;
 int l10 = 0;
 int l11 = 0;
 L1: {
  if ((l4 = m.g0) < 16L) { break L1; }
  L2: {
   L3: {
    L4: {
     if (l3 + Long.MIN_VALUE < -9223372036854775805L) { break L4; }
     if (((l7 = b[((int) l2) - 58912] & 0xff) & 240) != 224) { break L3; }
     final int t5 = b[((int) ((l5 = ((((l10 = (((l8 = b[((int) l2) - 58911] & 0xff) << 8) | ((l9 = b[((int) l2) - 58910] & 0xff) << 16)) | l7) & 0xffffffffL) * 953497L) >>> 22L) & 1016L) + 66857L)) - 58912] & 0xff;
     final int t6 = l11 = (Words.get32(b, State.far((int) l5, 66852)) == l10) ? 1 : 0;
     l10 = t6 != 0 ? t5 : 0;
     final int t7 = b[((int) (l5 + 66856L)) - 58912] & 0xff;
     final int t8 = l11;
     l11 = t8 != 0 ? t7 : 2;
     l8 = ((l9 + (l8 << 6)) + (l7 << 12)) + -925824;
     l3 = l3 + -3L;
     l2 = l2 + 3L;
     break L2;
    }
    L9: {
     if (!(l3 == 0L)) { break L9; }
     m.g0 = l4;
     return 0;
    }
    l7 = b[((int) l2) - 58912] & 0xff;
   }
   l8 = l7 & 255;
   l5 = 1L;
   L10: {
    if (((int) (byte) l7) > -1) { break L10; }
    l10 = (b[((int) l2) - 58911] & 0xff) & 63;
    L11: {
     if ((l7 & 255) + Integer.MIN_VALUE > -2147483425) { break L11; }
     l8 = ((l8 << 6) & 1984) | l10;
     l5 = 2L;
     break L10;
    }
    l11 = (b[((int) l2) - 58910] & 0xff) & 63;
    L12: {
     if ((l7 & 255) + Integer.MIN_VALUE > -2147483409) { break L12; }
     l8 = ((l10 << 6) | ((l8 << 12) & 61440)) | l11;
     l5 = 3L;
     break L10;
    }
    l8 = ((l11 << 6) | ((l10 << 12) | ((l8 << 18) & 1835008))) | ((b[((int) l2) - 58909] & 0xff) & 63);
    l5 = 4L;
   }
   L13: {
    if ((l8 + -2048) + Integer.MIN_VALUE <= -2147420161) { break L13; }
    m.g0 = l4;
    return 0;
   }
   final int t14 = b[((int) ((l6 = ((((l7 = (((l8 >>> 12) | ((l8 << 2) & 16128)) | ((l8 << 16) & 4128768)) | 8421600) & 0xffffffffL) * 953497L) >>> 22L) & 1016L) + 66857L)) - 58912] & 0xff;
   final int t15 = l7 = (Words.get32(b, State.far((int) l6, 66852)) == l7) ? 1 : 0;
   l10 = t15 != 0 ? t14 : 0;
   final int t16 = b[((int) (l6 + 66856L)) - 58912] & 0xff;
   final int t17 = l7;
   l11 = t17 != 0 ? t16 : 2;
   l2 = l2 + l5;
   l3 = l3 - l5;
  }
  l7 = 0;
  L18: {
   if ((l11 & 255) != 1) { break L18; }
   if ((l10 & 255) + Integer.MIN_VALUE < -2147483644) { break L18; }
   if ((l1 & 255) + Integer.MIN_VALUE < (l10 & 255) + Integer.MIN_VALUE) { break L18; }
   L19: {
    if ((l0 & 1) != 0) { break L19; }
    L20: {
     L21: {
      if (l8 > 29589) { break L21; }
      L22: {
       if (l8 > 22776) { break L22; }
       if (l8 == 20191) { break L18; }
       if (l8 == 20237) { break L18; }
       if (l8 != 20336) { break L20; }
       break L18;
      }
      L23: {
       if (l8 > 25419) { break L23; }
       if (l8 == 22777) { break L18; }
       if (l8 != 25342) { break L20; }
       break L18;
      }
      if (l8 == 25420) { break L18; }
      if (l8 != 26578) { break L20; }
      break L18;
     }
     L24: {
      if (l8 > 36143) { break L24; }
      L25: {
       switch (l8 + -36014) {
       case 0: case 5: break L18;
       case 1: case 2: case 3: case 4: break L20;
       default: break L25;
       }
      }
      if (l8 == 29590) { break L18; }
      if (l8 != 32902) { break L20; }
      break L18;
     }
     if (l8 == 36144) { break L18; }
     if (l8 == 38470) { break L18; }
     if (l8 == 38520) { break L18; }
    }
    if ((l8 + -21441) + Integer.MIN_VALUE < -2147483644) { break L18; }
   }
   l7 = 1;
   if ((l10 & 255) != 6) { break L18; }
   l7 = f108(m, l2, l3) ^ 1;
  }
  m.g0 = l4;
  final int t26 = l7;
  return t26;
 }
 throw State.trap();
}

static int f110(State m, long l0) {
 final byte[] b = m.bytes;
 int l1 = 0;
 int l2 = 0;
 L1: {
  if (m.g0 < 16L) { break L1; }
  l1 = 1;
  L2: {
   if ((b[((int) l0) - 58912] & 0xff) == 1) { break L2; }
   return 0;
  }
  L3: {
   if (((b[((int) (l0 + 12L)) - 58912] & 0xff) & 255) != 2) { break L3; }
   L4: {
    if ((l2 = Words.get32(b, ((int) (l0 + 8L)) - 58912)) + Integer.MIN_VALUE > -2147483521) { break L4; }
    if (l2 == 95) { break L3; }
    l1 = 0;
    if ((l2 + -44) + Integer.MIN_VALUE < -2147483645) { break L3; }
    final int t5 = (((l2 + -48) + Integer.MIN_VALUE < -2147483638) | (((l2 & 95) + -65) + Integer.MIN_VALUE < -2147483622)) ? 1 : 0;
    return t5;
   }
   L6: {
    L7: {
     L8: {
      if (l2 > 24185) { break L8; }
      L9: {
       if (l2 > 21316) { break L9; }
       L10: {
        if (l2 > 20959) { break L10; }
        L11: {
         if (l2 != 20313) { break L11; }
         return 0;
        }
        if (l2 != 20358) { break L7; }
        return 0;
       }
       L12: {
        if (l2 != 20960) { break L12; }
        return 0;
       }
       if (l2 != 20986) { break L7; }
       return 0;
      }
      L13: {
       switch (l2 + -21317) {
       case 0: case 7: break L6;
       case 1: case 2: case 3: case 4: case 5: case 6: break L7;
       default: break L13;
       }
      }
      L14: {
       if (l2 != 22810) { break L14; }
       return 0;
      }
      if (l2 != 22909) { break L7; }
      return 0;
     }
     L15: {
      L16: {
       if (l2 > 26468) { break L16; }
       l1 = 0;
       L17: {
        switch (l2 + -24186) {
        case 0: break L6;
        case 1: case 2: case 3: break L7;
        case 4: break L3;
        default: break L17;
        }
       }
       l1 = 0;
       switch (l2 + -25968) {
       case 0: case 8: break L3;
       case 1: case 2: case 3: case 4: case 5: case 6: case 7: break L7;
       default: break L15;
       }
      }
      L18: {
       if (l2 > 39191) { break L18; }
       L19: {
        if (l2 != 26469) { break L19; }
        return 0;
       }
       if (l2 != 28857) { break L7; }
       return 0;
      }
      L20: {
       if (l2 != 39192) { break L20; }
       return 0;
      }
      if (l2 != 40670) { break L7; }
      return 0;
     }
     if (l2 == 24319) { break L6; }
    }
    l1 = 0;
    if ((l2 + -65296) + Integer.MIN_VALUE > -2147483639) { break L3; }
   }
   l1 = 1;
  }
  final int t21 = l1;
  return t21;
 }
 throw State.trap();
}

static int f111(State m, int l0, long l1, long l2) {
 final byte[] b = m.bytes;
 int l3 = 0;
 int l4 = 0;
 int l5 = 0;
 L1: {
  if (m.g0 < 16L) { break L1; }
  l3 = 0;
  L2: {
   L3: {
    if (l0 == 20986) { break L3; }
    if (l0 != 22909) { break L2; }
    if (l2 == 0L) { break L2; }
    l0 = (l3 = (int) b[((int) l1) - 58912]) & 255;
    L4: {
     if (l3 > -1) { break L4; }
     l4 = (b[((int) l1) - 58911] & 0xff) & 63;
     L5: {
      if (l3 + Integer.MIN_VALUE > 2147483615) { break L5; }
      l0 = ((l0 << 6) & 1984) | l4;
      break L4;
     }
     l5 = (b[((int) l1) - 58910] & 0xff) & 63;
     L6: {
      if (l3 + Integer.MIN_VALUE > 2147483631) { break L6; }
      l0 = ((l4 << 6) | ((l0 << 12) & 61440)) | l5;
      break L4;
     }
     l0 = ((l5 << 6) | ((l4 << 12) | ((l0 << 18) & 1835008))) | ((b[((int) l1) - 58909] & 0xff) & 63);
    }
    final int t7 = ((l0 == 20960) | (l0 == 24190)) ? 1 : 0;
    return t7;
   }
   if (l2 == 0L) { break L2; }
   l0 = (l3 = (int) b[((int) l1) - 58912]) & 255;
   L8: {
    if (l3 > -1) { break L8; }
    l4 = (b[((int) l1) - 58911] & 0xff) & 63;
    L9: {
     if (l3 + Integer.MIN_VALUE > 2147483615) { break L9; }
     l0 = ((l0 << 6) & 1984) | l4;
     break L8;
    }
    l5 = (b[((int) l1) - 58910] & 0xff) & 63;
    L10: {
     if (l3 + Integer.MIN_VALUE > 2147483631) { break L10; }
     l0 = ((l4 << 6) | ((l0 << 12) & 61440)) | l5;
     break L8;
    }
    l0 = ((l5 << 6) | ((l4 << 12) | ((l0 << 18) & 1835008))) | ((b[((int) l1) - 58909] & 0xff) & 63);
   }
   l3 = ((l0 == 22836) | (l0 == 38957)) ? 1 : 0;
  }
  final int t11 = l3;
  return t11;
 }
 throw State.trap();
}

static int f112(State m, long l0) {
 final byte[] b = m.bytes;
 int l1 = 0;
 int l2 = 0;
 L1: {
  if (m.g0 < 16L) { break L1; }
  l1 = 1;
  L2: {
   if ((b[((int) l0) - 58912] & 0xff) == 1) { break L2; }
   return 0;
  }
  L3: {
   if (((b[((int) (l0 + 12L)) - 58912] & 0xff) & 255) != 2) { break L3; }
   L4: {
    if ((l2 = Words.get32(b, ((int) (l0 + 8L)) - 58912)) + Integer.MIN_VALUE > -2147483521) { break L4; }
    if (l2 == 95) { break L3; }
    l1 = 0;
    if ((l2 + -44) + Integer.MIN_VALUE < -2147483645) { break L3; }
    final int t5 = (((l2 + -48) + Integer.MIN_VALUE < -2147483638) | (((l2 & 95) + -65) + Integer.MIN_VALUE < -2147483622)) ? 1 : 0;
    return t5;
   }
   L6: {
    L7: {
     L8: {
      if (l2 > 24185) { break L8; }
      L9: {
       if (l2 > 21316) { break L9; }
       L10: {
        if (l2 > 20959) { break L10; }
        L11: {
         if (l2 != 20313) { break L11; }
         return 0;
        }
        if (l2 != 20358) { break L7; }
        return 0;
       }
       L12: {
        if (l2 != 20960) { break L12; }
        return 0;
       }
       if (l2 != 20986) { break L7; }
       return 0;
      }
      L13: {
       switch (l2 + -21317) {
       case 0: case 7: break L6;
       case 1: case 2: case 3: case 4: case 5: case 6: break L7;
       default: break L13;
       }
      }
      L14: {
       if (l2 != 22810) { break L14; }
       return 0;
      }
      if (l2 != 22909) { break L7; }
      return 0;
     }
     L15: {
      L16: {
       if (l2 > 26468) { break L16; }
       l1 = 0;
       L17: {
        switch (l2 + -24186) {
        case 0: break L6;
        case 1: case 2: case 3: break L7;
        case 4: break L3;
        default: break L17;
        }
       }
       l1 = 0;
       switch (l2 + -25968) {
       case 0: case 8: break L3;
       case 1: case 2: case 3: case 4: case 5: case 6: case 7: break L7;
       default: break L15;
       }
      }
      L18: {
       if (l2 > 39191) { break L18; }
       L19: {
        if (l2 != 26469) { break L19; }
        return 0;
       }
       if (l2 != 28857) { break L7; }
       return 0;
      }
      L20: {
       if (l2 != 39192) { break L20; }
       return 0;
      }
      if (l2 != 40670) { break L7; }
      return 0;
     }
     if (l2 == 24319) { break L6; }
    }
    l1 = 0;
    if ((l2 + -65296) + Integer.MIN_VALUE > -2147483639) { break L3; }
   }
   l1 = 1;
  }
  final int t21 = l1;
  return t21;
 }
 throw State.trap();
}

static void f113(State m, long l0, long l1, long l2) {
 final byte[] b = m.bytes;
 int l3 = 0;
 int l4 = 0;
 int l5 = 0;
 int l6 = 0;
 int l7 = 0;
 int l8 = 0;
 int l9 = 0;
 long l10 = 0;
 L1: {
  L2: {
   if (m.g0 < 16L) { break L2; }
   L3: {
    L4: {
     L5: {
      if (l2 + Long.MIN_VALUE < -9223372036854775805L) { break L5; }
      if (((l3 = b[((int) l1) - 58912] & 0xff) & 240) != 224) { break L4; }
      final int t6 = b[((int) ((l1 = ((((l6 = (((l4 = b[((int) l1) - 58911] & 0xff) << 8) | ((l5 = b[((int) l1) - 58910] & 0xff) << 16)) | l3) & 0xffffffffL) * 953497L) >>> 22L) & 1016L) + 66857L)) - 58912] & 0xff;
      final int t7 = l6 = (Words.get32(b, State.far((int) l1, 66852)) == l6) ? 1 : 0;
      l7 = t7 != 0 ? t6 : 0;
      final int t8 = b[((int) (l1 + 66856L)) - 58912] & 0xff;
      final int t9 = l6;
      l8 = t9 != 0 ? t8 : 2;
      l4 = ((l5 + (l4 << 6)) + (l3 << 12)) + -925824;
      l2 = l2 + -3L;
      break L3;
     }
     if (l2 == 0L) { break L1; }
     l3 = b[((int) l1) - 58912] & 0xff;
    }
    l4 = l3 & 255;
    l10 = -1L;
    L10: {
     if (((int) (byte) l3) > -1) { break L10; }
     l5 = (b[((int) l1) - 58911] & 0xff) & 63;
     L11: {
      if ((l3 & 255) + Integer.MIN_VALUE > -2147483425) { break L11; }
      l4 = ((l4 << 6) & 1984) | l5;
      l10 = -2L;
      break L10;
     }
     l6 = (b[((int) l1) - 58910] & 0xff) & 63;
     L12: {
      if ((l3 & 255) + Integer.MIN_VALUE > -2147483409) { break L12; }
      l4 = ((l5 << 6) | ((l4 << 12) & 61440)) | l6;
      l10 = -3L;
      break L10;
     }
     l4 = ((l6 << 6) | ((l5 << 12) | ((l4 << 18) & 1835008))) | ((b[((int) l1) - 58909] & 0xff) & 63);
     l10 = -4L;
    }
    l2 = l10 + l2;
    L13: {
     if ((l4 + -2048) + Integer.MIN_VALUE > -2147420161) { break L13; }
     final int t14 = b[((int) ((l1 = ((((l3 = (((l4 >>> 12) | ((l4 << 2) & 16128)) | ((l4 << 16) & 4128768)) | 8421600) & 0xffffffffL) * 953497L) >>> 22L) & 1016L) + 66857L)) - 58912] & 0xff;
     final int t15 = l3 = (Words.get32(b, State.far((int) l1, 66852)) == l3) ? 1 : 0;
     l7 = t15 != 0 ? t14 : 0;
     final int t16 = b[((int) (l1 + 66856L)) - 58912] & 0xff;
     final int t17 = l3;
     l8 = t17 != 0 ? t16 : 2;
     break L3;
    }
    final int t18 = l3 = l4 + -48;
    final int t19 = l3 = (l3 + Integer.MIN_VALUE < -2147483638) ? 1 : 0;
    l7 = t19 != 0 ? t18 : 0;
    l8 = l3 != 0 ? 0 : 2;
   }
   l3 = 0;
   l5 = 0;
   l6 = 0;
   l9 = 0;
   L20: {
    if (!(l2 == 0L)) { break L20; }
    l9 = (((l4 + -58) + Integer.MIN_VALUE < 2147483638) & ((l4 + -65306) + Integer.MIN_VALUE < 2147483638)) ? 1 : 0;
    l3 = 1;
    l5 = l8;
    l6 = l7;
   }
   b[((int) l0) - 58912] = (byte) l3;
   b[((int) (l0 + 3L)) - 58912] = (byte) l9;
   b[((int) (l0 + 2L)) - 58912] = (byte) l6;
   b[((int) (l0 + 1L)) - 58912] = (byte) l5;
   return;
  }
  throw State.trap();
 }
 Words.put32(b, ((int) l0) - 58912, 0);
}

static int f114(State m, long l0, long l1) {
 final byte[] b = m.bytes;
 int l2 = 0;
 int l3 = 0;
 int l4 = 0;
 int l5 = 0;
 long l6 = 0;
 L1: {
  if (m.g0 < 16L) { break L1; }
  L2: {
   L3: {
    L4: while (true) {
     L5: {
      L6: {
       L7: {
        if (l1 + Long.MIN_VALUE < -9223372036854775805L) { break L7; }
        if (((l2 = b[((int) l0) - 58912] & 0xff) & 240) != 224) { break L6; }
        if (Words.get32(b, State.far((int) (l6 = ((((l3 = (((b[((int) l0) - 58911] & 0xff) << 8) | ((b[((int) l0) - 58910] & 0xff) << 16)) | l2) & 0xffffffffL) * 953497L) >>> 22L) & 1016L), 66852)) != l3) { break L3; }
        l2 = b[((int) (l6 + 66856L)) - 58912] & 0xff;
        l1 = l1 + -3L;
        l0 = l0 + 3L;
        break L5;
       }
       L8: {
        if (!(l1 == 0L)) { break L8; }
        return 1;
       }
       l2 = b[((int) l0) - 58912] & 0xff;
      }
      l3 = l2 & 255;
      l6 = 1L;
      L9: {
       if (((int) (byte) l2) > -1) { break L9; }
       l4 = (b[((int) l0) - 58911] & 0xff) & 63;
       L10: {
        if ((l2 & 255) + Integer.MIN_VALUE > -2147483425) { break L10; }
        l3 = ((l3 << 6) & 1984) | l4;
        l6 = 2L;
        break L9;
       }
       l5 = (b[((int) l0) - 58910] & 0xff) & 63;
       L11: {
        if ((l2 & 255) + Integer.MIN_VALUE > -2147483409) { break L11; }
        l3 = ((l4 << 6) | ((l3 << 12) & 61440)) | l5;
        l6 = 3L;
        break L9;
       }
       l3 = ((l5 << 6) | ((l4 << 12) | ((l3 << 18) & 1835008))) | ((b[((int) l0) - 58909] & 0xff) & 63);
       l6 = 4L;
      }
      l1 = l1 - l6;
      l0 = l0 + l6;
      L12: {
       if ((l3 + -2048) + Integer.MIN_VALUE > -2147420161) { break L12; }
       if (Words.get32(b, State.far((int) (l6 = ((((l3 = (((l3 >>> 12) | ((l3 << 2) & 16128)) | ((l3 << 16) & 4128768)) | 8421600) & 0xffffffffL) * 953497L) >>> 22L) & 1016L), 66852)) != l3) { break L3; }
       l2 = b[((int) (l6 + 66856L)) - 58912] & 0xff;
       break L5;
      }
      l2 = 0;
      if ((l3 + -48) + Integer.MIN_VALUE > -2147483639) { break L2; }
     }
     if ((l2 & 255) == 0) { continue L4; }
     break L4;
    }
   }
   l2 = 0;
  }
  final int t13 = l2;
  return t13;
 }
 throw State.trap();
}

static int f115(State m, long l0, long l1) {
 final byte[] b = m.bytes;
 int l2 = 0;
 int l3 = 0;
 int l4 = 0;
 int l5 = 0;
 L1: {
  if (m.g0 < 16L) { break L1; }
  L2: {
   L3: {
    L4: {
     L5: {
      if (l1 + Long.MIN_VALUE < -9223372036854775805L) { break L5; }
      if (((l2 = b[((int) l0) - 58912] & 0xff) & 240) != 224) { break L4; }
      final int t6 = b[((int) ((l0 = ((((l3 = (((b[((int) l0) - 58911] & 0xff) << 8) | ((b[((int) l0) - 58910] & 0xff) << 16)) | l2) & 0xffffffffL) * 953497L) >>> 22L) & 1016L) + 66856L)) - 58912] & 0xff;
      final int t7 = (Words.get32(b, State.far((int) l0, 66852)) == l3) ? 1 : 0;
      l3 = t7 != 0 ? t6 : 2;
      break L3;
     }
     L8: {
      if (!(l1 == 0L)) { break L8; }
      l2 = 0;
      l3 = 0;
      break L2;
     }
     l2 = b[((int) l0) - 58912] & 0xff;
    }
    l3 = l2 & 255;
    L9: {
     if (((int) (byte) l2) > -1) { break L9; }
     l4 = (b[((int) l0) - 58911] & 0xff) & 63;
     L10: {
      if ((l2 & 255) + Integer.MIN_VALUE > -2147483425) { break L10; }
      l3 = ((l3 << 6) & 1984) | l4;
      break L9;
     }
     l5 = (b[((int) l0) - 58910] & 0xff) & 63;
     L11: {
      if ((l2 & 255) + Integer.MIN_VALUE > -2147483409) { break L11; }
      l3 = ((l4 << 6) | ((l3 << 12) & 61440)) | l5;
      break L9;
     }
     l3 = ((l5 << 6) | ((l4 << 12) | ((l3 << 18) & 1835008))) | ((b[((int) l0) - 58909] & 0xff) & 63);
    }
    L12: {
     if ((l3 + -2048) + Integer.MIN_VALUE > -2147420161) { break L12; }
     final int t13 = b[((int) ((l0 = ((((l3 = (((l3 >>> 12) | ((l3 << 2) & 16128)) | ((l3 << 16) & 4128768)) | 8421600) & 0xffffffffL) * 953497L) >>> 22L) & 1016L) + 66856L)) - 58912] & 0xff;
     final int t14 = (Words.get32(b, State.far((int) l0, 66852)) == l3) ? 1 : 0;
     l3 = t14 != 0 ? t13 : 2;
     break L3;
    }
    l3 = ((l3 + -48) + Integer.MIN_VALUE < -2147483638) ? 0 : 2;
   }
   l2 = 1;
  }
  final int t15 = l2 & (((l3 & 255) == 1) ? 1 : 0);
  return t15;
 }
 throw State.trap();
}

static int f116(State m, long l0, long l1) {
 final byte[] b = m.bytes;
 long l2 = 0;
 long l3 = 0;
 int l4 = 0;
 int l5 = 0;
 int l6 = 0;
 int l7 = 0;
 int l8 = 0;
 m.g0 = l2 = m.g0 - 32L;
 L1: {
  if ((l3 = l2) < 16L) { break L1; }
  L2: {
   L3: {
    L4: while (true) {
     L5: {
      L6: {
       L7: {
        if (l1 + Long.MIN_VALUE < -9223372036854775805L) { break L7; }
        if (((l4 = b[((int) l0) - 58912] & 0xff) & 240) != 224) { break L6; }
        final int t8 = b[((int) ((l2 = ((((l7 = (((l5 = b[((int) l0) - 58911] & 0xff) << 8) | ((l6 = b[((int) l0) - 58910] & 0xff) << 16)) | l4) & 0xffffffffL) * 953497L) >>> 22L) & 1016L) + 66856L)) - 58912] & 0xff;
        final int t9 = (Words.get32(b, State.far((int) l2, 66852)) == l7) ? 1 : 0;
        l7 = t9 != 0 ? t8 : 2;
        l5 = ((l6 + (l5 << 6)) + (l4 << 12)) + -925824;
        l1 = l1 + -3L;
        l0 = l0 + 3L;
        break L5;
       }
       if (l1 == 0L) { break L3; }
       l4 = b[((int) l0) - 58912] & 0xff;
      }
      l5 = l4 & 255;
      l2 = 1L;
      L10: {
       if (((int) (byte) l4) > -1) { break L10; }
       l7 = (b[((int) l0) - 58911] & 0xff) & 63;
       L11: {
        if ((l4 & 255) + Integer.MIN_VALUE > -2147483425) { break L11; }
        l5 = ((l5 << 6) & 1984) | l7;
        l2 = 2L;
        break L10;
       }
       l6 = (b[((int) l0) - 58910] & 0xff) & 63;
       L12: {
        if ((l4 & 255) + Integer.MIN_VALUE > -2147483409) { break L12; }
        l5 = ((l7 << 6) | ((l5 << 12) & 61440)) | l6;
        l2 = 3L;
        break L10;
       }
       l5 = ((l6 << 6) | ((l7 << 12) | ((l5 << 18) & 1835008))) | ((b[((int) l0) - 58909] & 0xff) & 63);
       l2 = 4L;
      }
      l1 = l1 - l2;
      l0 = l0 + l2;
      L13: {
       if ((l5 + -2048) + Integer.MIN_VALUE > -2147420161) { break L13; }
       final int t14 = b[((int) ((l2 = ((((l4 = (((l5 >>> 12) | ((l5 << 2) & 16128)) | ((l5 << 16) & 4128768)) | 8421600) & 0xffffffffL) * 953497L) >>> 22L) & 1016L) + 66856L)) - 58912] & 0xff;
       final int t15 = (Words.get32(b, State.far((int) l2, 66852)) == l4) ? 1 : 0;
       l7 = t15 != 0 ? t14 : 2;
       break L5;
      }
      l7 = ((l5 + -48) + Integer.MIN_VALUE < -2147483638) ? 0 : 2;
     }
     if (l5 == 28857) { break L3; }
     if (l5 == 40670) { break L3; }
     L16: {
      if ((l7 & 255) == 0) { break L16; }
      if ((l5 + -65296) + Integer.MIN_VALUE > -2147483639) { continue L4; }
     }
     L17: {
      L18: {
       L19: {
        if (l1 + Long.MIN_VALUE < -9223372036854775805L) { break L19; }
        if (((l7 = b[((int) l0) - 58912] & 0xff) & 240) != 224) { break L18; }
        final int t20 = b[((int) ((l2 = ((((l6 = (((l4 = b[((int) l0) - 58911] & 0xff) << 8) | ((l8 = b[((int) l0) - 58910] & 0xff) << 16)) | l7) & 0xffffffffL) * 953497L) >>> 22L) & 1016L) + 66856L)) - 58912] & 0xff;
        final int t21 = (Words.get32(b, State.far((int) l2, 66852)) == l6) ? 1 : 0;
        l6 = t21 != 0 ? t20 : 2;
        l4 = ((l8 + (l4 << 6)) + (l7 << 12)) + -925824;
        break L17;
       }
       if (l1 == 0L) { continue L4; }
       l7 = b[((int) l0) - 58912] & 0xff;
      }
      l4 = l7 & 255;
      L22: {
       if (((int) (byte) l7) > -1) { break L22; }
       l6 = (b[((int) l0) - 58911] & 0xff) & 63;
       L23: {
        if ((l7 & 255) + Integer.MIN_VALUE > -2147483425) { break L23; }
        l4 = ((l4 << 6) & 1984) | l6;
        break L22;
       }
       l8 = (b[((int) l0) - 58910] & 0xff) & 63;
       L24: {
        if ((l7 & 255) + Integer.MIN_VALUE > -2147483409) { break L24; }
        l4 = ((l6 << 6) | ((l4 << 12) & 61440)) | l8;
        break L22;
       }
       l4 = ((l8 << 6) | ((l6 << 12) | ((l4 << 18) & 1835008))) | ((b[((int) l0) - 58909] & 0xff) & 63);
      }
      L25: {
       if ((l4 + -2048) + Integer.MIN_VALUE > -2147420161) { break L25; }
       final int t26 = b[((int) ((l2 = ((((l7 = (((l4 >>> 12) | ((l4 << 2) & 16128)) | ((l4 << 16) & 4128768)) | 8421600) & 0xffffffffL) * 953497L) >>> 22L) & 1016L) + 66856L)) - 58912] & 0xff;
       final int t27 = (Words.get32(b, State.far((int) l2, 66852)) == l7) ? 1 : 0;
       l6 = t27 != 0 ? t26 : 2;
       break L17;
      }
      l6 = ((l4 + -48) + Integer.MIN_VALUE < -2147483638) ? 0 : 2;
     }
     L28: {
      if ((l6 & 255) == 0) { break L28; }
      if ((l4 + -65296) + Integer.MIN_VALUE > -2147483639) { continue L4; }
     }
     break L4;
    }
    Core2.f63(m, l3 + 24L, l5);
    if ((l5 + -58) + Integer.MIN_VALUE > 2147483637) { break L3; }
    if (((b[((int) l3) - 58888] & 0xff) & 255) != 1) { break L3; }
    Core2.f63(m, l3 + 16L, l4);
    if ((l4 + -58) + Integer.MIN_VALUE > 2147483637) { break L3; }
    if (((b[((int) l3) - 58896] & 0xff) & 255) != 1) { break L3; }
    Core2.f63(m, l3 + 8L, l5);
    l5 = b[((int) l3) - 58903] & 0xff;
    l7 = b[((int) l3) - 58904] & 0xff;
    Core2.f63(m, l3, l4);
    if (((l7 & (b[((int) l3) - 58912] & 0xff)) & 255) == 0) { break L3; }
    if ((l4 = l5 & 255) == 0) { break L3; }
    L29: {
     if ((l7 = (b[((int) l3) - 58911] & 0xff) & 255) == ((l5 + 1) & 255)) { break L29; }
     if (!((l4 == 3) & (l7 == 5))) { break L3; }
    }
    L30: while (true) {
     L31: {
      L32: {
       L33: {
        if (l1 + Long.MIN_VALUE < -9223372036854775805L) { break L33; }
        if (((l4 = b[((int) l0) - 58912] & 0xff) & 240) != 224) { break L32; }
        final int t34 = b[((int) ((l2 = ((((l7 = (((l5 = b[((int) l0) - 58911] & 0xff) << 8) | ((l6 = b[((int) l0) - 58910] & 0xff) << 16)) | l4) & 0xffffffffL) * 953497L) >>> 22L) & 1016L) + 66856L)) - 58912] & 0xff;
        final int t35 = (Words.get32(b, State.far((int) l2, 66852)) == l7) ? 1 : 0;
        l7 = t35 != 0 ? t34 : 2;
        l4 = (((l4 << 12) | l6) + (l5 << 6)) + -925824;
        l1 = l1 + -3L;
        l0 = l0 + 3L;
        break L31;
       }
       L36: {
        if (!(l1 == 0L)) { break L36; }
        l5 = 1;
        break L2;
       }
       l4 = b[((int) l0) - 58912] & 0xff;
      }
      l2 = 1L;
      L37: {
       if (((int) (byte) l4) > -1) { break L37; }
       l5 = (b[((int) l0) - 58911] & 0xff) & 63;
       L38: {
        if (l4 + Integer.MIN_VALUE > -2147483425) { break L38; }
        l4 = ((l4 << 6) & 1984) | l5;
        l2 = 2L;
        break L37;
       }
       l7 = (b[((int) l0) - 58910] & 0xff) & 63;
       L39: {
        if (l4 + Integer.MIN_VALUE > -2147483409) { break L39; }
        l4 = ((l5 << 6) | ((l4 << 12) & 61440)) | l7;
        l2 = 3L;
        break L37;
       }
       l4 = ((l7 << 6) | ((l5 << 12) | ((l4 << 18) & 1835008))) | ((b[((int) l0) - 58909] & 0xff) & 63);
       l2 = 4L;
      }
      l1 = l1 - l2;
      l0 = l0 + l2;
      L40: {
       if ((l4 + -2048) + Integer.MIN_VALUE > -2147420161) { break L40; }
       final int t41 = b[((int) ((l2 = ((((l5 = (((l4 >>> 12) | ((l4 << 2) & 16128)) | ((l4 << 16) & 4128768)) | 8421600) & 0xffffffffL) * 953497L) >>> 22L) & 1016L) + 66856L)) - 58912] & 0xff;
       final int t42 = (Words.get32(b, State.far((int) l2, 66852)) == l5) ? 1 : 0;
       l7 = t42 != 0 ? t41 : 2;
       break L31;
      }
      l7 = ((l4 + -48) + Integer.MIN_VALUE < -2147483638) ? 0 : 2;
     }
     l5 = 1;
     if (l4 == 28857) { break L2; }
     if (l4 == 40670) { break L2; }
     L43: {
      if ((l7 & 255) == 0) { break L43; }
      if ((l4 + -65296) + Integer.MIN_VALUE > -2147483639) { continue L30; }
     }
     L44: {
      L45: {
       L46: {
        if (l1 + Long.MIN_VALUE < -9223372036854775805L) { break L46; }
        if (((l5 = b[((int) l0) - 58912] & 0xff) & 240) != 224) { break L45; }
        final int t47 = b[((int) ((l2 = ((((l4 = (((l7 = b[((int) l0) - 58911] & 0xff) << 8) | ((l6 = b[((int) l0) - 58910] & 0xff) << 16)) | l5) & 0xffffffffL) * 953497L) >>> 22L) & 1016L) + 66856L)) - 58912] & 0xff;
        final int t48 = (Words.get32(b, State.far((int) l2, 66852)) == l4) ? 1 : 0;
        l4 = t48 != 0 ? t47 : 2;
        l5 = (((l5 << 12) | l6) + (l7 << 6)) + -925824;
        break L44;
       }
       if (l1 == 0L) { continue L30; }
       l5 = b[((int) l0) - 58912] & 0xff;
      }
      L49: {
       if (((int) (byte) l5) > -1) { break L49; }
       l4 = (b[((int) l0) - 58911] & 0xff) & 63;
       L50: {
        if (l5 + Integer.MIN_VALUE > -2147483425) { break L50; }
        l5 = ((l5 << 6) & 1984) | l4;
        break L49;
       }
       l7 = (b[((int) l0) - 58910] & 0xff) & 63;
       L51: {
        if (l5 + Integer.MIN_VALUE > -2147483409) { break L51; }
        l5 = ((l4 << 6) | ((l5 << 12) & 61440)) | l7;
        break L49;
       }
       l5 = ((l7 << 6) | ((l4 << 12) | ((l5 << 18) & 1835008))) | ((b[((int) l0) - 58909] & 0xff) & 63);
      }
      L52: {
       if ((l5 + -2048) + Integer.MIN_VALUE > -2147420161) { break L52; }
       final int t53 = b[((int) ((l2 = ((((l4 = (((l5 >>> 12) | ((l5 << 2) & 16128)) | ((l5 << 16) & 4128768)) | 8421600) & 0xffffffffL) * 953497L) >>> 22L) & 1016L) + 66856L)) - 58912] & 0xff;
       final int t54 = (Words.get32(b, State.far((int) l2, 66852)) == l4) ? 1 : 0;
       l4 = t54 != 0 ? t53 : 2;
       break L44;
      }
      l4 = ((l5 + -48) + Integer.MIN_VALUE < -2147483638) ? 0 : 2;
     }
     if ((l4 & 255) == 0) { break L3; }
     if ((l5 + -65296) + Integer.MIN_VALUE > -2147483639) { continue L30; }
     break L30;
    }
   }
   l5 = 0;
  }
  m.g0 = l3 + 32L;
  final int t55 = l5;
  return t55;
 }
 throw State.trap();
}

static int f117_1(State m, long l8, long l13, long l14, long l15, long l16, long l17, long l18, long l23, long l24, long l25, long l26, long l27, long l28, long l29, long l30, long l31, long l32, long l33, long l34, long l35, long l36, long l37, long l38, long l39, long l40, long l41, int l42, int l43, int l44, int l45, int l46, int l47, int l48, int l49, int l50, int l51) {
 final byte[] b = m.bytes;
 int exit = 0;
 PART: {
  L6: {
   L7: {
    if (l42 == 1) { break L7; }
    l47 = 0;
    l48 = 0;
    l49 = 0;
    l50 = 0;
    l51 = 0;
    break L6;
   }
   l31 = Words.get64(b, ((int) l8) - 58592);
   l32 = Words.get64(b, ((int) l8) - 58600);
   l47 = 0;
   l48 = 0;
   l49 = 0;
   l50 = 0;
   l51 = 0;
   L8: {
    L9: {
     L10: {
      L11: {
       L12: {
        L13: {
         L14: {
          L15: {
           switch (l45) {
           case 1: break L14;
           case 2: break L13;
           case 3: break L6;
           default: break L15;
           }
          }
          l30 = 0L;
          Words.put64(b, ((int) l8) - 58560, 0L);
          l48 = 0;
          Words.put32(b, ((int) l8) - 58552, 0);
          Core4.f120(m, l8 + 352L, l46, l8 + 216L);
          l43 = Words.get32(b, State.far((int) (((l46 & 0xffffffffL) & 255L) << 2L), 101912));
          l47 = 2;
          l49 = 0;
          l50 = 0;
          l51 = 0;
          if ((b[((int) l8) - 58560] & 0xff) != 1) { break L6; }
          Words.put32(b, ((int) l13) - 58912, Words.get32(b, ((int) l8) - 58696));
          Words.put16(b, ((int) l13) - 58908, (short) (Words.get16(b, ((int) l8) - 58692) & 0xffff));
          b[((int) l8) - 58687] = (byte) l46;
          b[((int) l8) - 58688] = (byte) l44;
          Words.put64(b, ((int) l8) - 58672, l28);
          Words.put64(b, ((int) l8) - 58680, l27);
          l46 = b[((int) l8) - 58549] & 0xff;
          l51 = b[((int) l8) - 58550] & 0xff;
          l45 = b[((int) l8) - 58551] & 0xff;
          l50 = b[((int) l8) - 58552] & 0xff;
          l49 = Words.get16(b, ((int) l8) - 58554) & 0xffff;
          l48 = Words.get16(b, ((int) l8) - 58556) & 0xffff;
          l42 = b[((int) l8) - 58557] & 0xff;
          l29 = b[((int) l8) - 58558] & 0xffL;
          l47 = Core4.f121(m, l23, l24, l8 + 224L, l25, l26);
          L16: {
           L17: {
            L18: {
             L19: {
              L20: {
               L21: {
                L22: {
                 L23: {
                  switch ((int) l29) {
                  case 1: case 8: break L17;
                  case 2: break L22;
                  case 3: break L21;
                  case 4: break L20;
                  case 5: break L16;
                  case 6: break L18;
                  case 7: break L19;
                  default: break L23;
                  }
                 }
                 l51 = ((((l42 = (l50 == 1) ? 1 : 0) != 0) ? 2 : 0) | (l50 = ((l48 & 255) == 1) ? 1 : 0)) | (((l44 = ((l51 & 255) == 1) ? 1 : 0) != 0) ? 4 : 0);
                 l48 = l50 != 0 ? l49 : 0;
                 l49 = (l42 != 0 ? l45 : 0) & 255;
                 l50 = (l44 != 0 ? l46 : 0) & 255;
                 break L6;
                }
                l49 = l48 & 255;
                break L8;
               }
               l49 = l48 & 255;
               break L8;
              }
              b[((int) l8) - 58448] = (byte) l42;
              Words.put16(b, ((int) l8) - 58447, (short) l48);
              Core4.f122(m, l8 + 8L, l44, l25, l26, l8 + 464L);
              l49 = l48 & 255;
              l50 = l48 >>> 8;
              final int t24 = b[((int) l8) - 58903] & 0xff;
              final int t25 = ((b[((int) l8) - 58904] & 0xff) == 1) ? 1 : 0;
              l51 = (t25 != 0 ? t24 : -1) & 255;
              l48 = l42;
              break L6;
             }
             l50 = l49 >>> 8;
             l51 = 0;
             l49 = l49 & 255;
             break L6;
            }
            l49 = 0;
           }
           l50 = 0;
          }
          l51 = 0;
          break L6;
         }
         l30 = Words.get64(b, ((int) l8) - 58568);
         Words.put32(b, ((int) l13) - 58912, Words.get32(b, ((int) l8) - 58696));
         Words.put16(b, ((int) l13) - 58908, (short) (Words.get16(b, ((int) l8) - 58692) & 0xffff));
         Words.put64(b, ((int) l18) - 58912, Words.get64(b, ((int) l8) - 58736));
         Words.put64(b, ((int) l18) - 58904, Words.get64(b, ((int) l8) - 58728));
         Words.put64(b, ((int) l18) - 58896, Words.get64(b, ((int) l8) - 58720));
         Words.put64(b, ((int) l18) - 58888, Words.get64(b, ((int) l8) - 58712));
         Words.put64(b, ((int) l18) - 58880, Words.get64(b, ((int) l8) - 58704));
         b[((int) l8) - 58687] = (byte) l46;
         b[((int) l8) - 58688] = (byte) l44;
         Words.put64(b, ((int) l8) - 58664, l29);
         Words.put64(b, ((int) l8) - 58672, l28);
         Words.put64(b, ((int) l8) - 58680, l27);
         Words.put64(b, ((int) l17) - 58912, Words.get64(b, ((int) l8) - 58752));
         Words.put64(b, ((int) l17) - 58904, Words.get64(b, ((int) l8) - 58744));
         Words.put32(b, ((int) l16) - 58912, Words.get32(b, ((int) l8) - 58696));
         Words.put16(b, ((int) l16) - 58908, (short) (Words.get16(b, ((int) l8) - 58692) & 0xffff));
         Words.put64(b, ((int) l15) - 58880, Words.get64(b, ((int) l8) - 58704));
         Words.put64(b, ((int) l15) - 58888, Words.get64(b, ((int) l8) - 58712));
         Words.put64(b, ((int) l15) - 58896, Words.get64(b, ((int) l8) - 58720));
         Words.put64(b, ((int) l15) - 58904, Words.get64(b, ((int) l8) - 58728));
         Words.put64(b, ((int) l15) - 58912, Words.get64(b, ((int) l8) - 58736));
         Words.put64(b, ((int) l8) - 58608, l31);
         Words.put64(b, ((int) l8) - 58616, l32);
         Words.put64(b, ((int) l8) - 58584, l30);
         b[((int) l8) - 58559] = (byte) l46;
         b[((int) l8) - 58560] = (byte) l44;
         Words.put64(b, ((int) l8) - 58552, l27);
         Words.put64(b, ((int) l8) - 58544, l28);
         Words.put64(b, ((int) l8) - 58536, l29);
         Words.put64(b, ((int) l14) - 58912, Words.get64(b, ((int) l8) - 58752));
         Words.put64(b, ((int) l14) - 58904, Words.get64(b, ((int) l8) - 58744));
         Words.put64(b, ((int) l8) - 58480, l31);
         Words.put64(b, ((int) l8) - 58488, l32);
         Words.put64(b, ((int) l8) - 58456, l30);
         l47 = Core4.f123(m, l23, l24, l8 + 352L);
         l30 = 0L;
         Words.put64(b, ((int) l8) - 58392, 0L);
         Words.put64(b, ((int) l8) - 58400, 0L);
         Words.put64(b, ((int) l8) - 58408, 0L);
         Words.put64(b, ((int) l8) - 58416, 0L);
         Words.put64(b, ((int) l8) - 58424, 0L);
         Words.put64(b, ((int) l8) - 58432, 0L);
         Words.put64(b, ((int) l8) - 58440, 0L);
         Words.put64(b, ((int) l8) - 58448, 0L);
         Core4.f124(m, l8 + 464L, l8 + 224L);
         l51 = 0;
         l50 = 0;
         l33 = 0L;
         if ((b[((int) l8) - 58448] & 0xff) != 1) { break L9; }
         l33 = 0L;
         final long t26 = l8 + 64L;
         final long t27 = 0L - (l29 = Words.get64(b, ((int) l8) - 58432));
         final long t28 = l29;
         final int t29 = l42 = ((l28 = Words.get64(b, ((int) l8) - 58424)) < 0L) ? 1 : 0;
         Core1.f3(m, t26, t29 != 0 ? t27 : t28, 0L, 100L, 0L);
         final long t30 = l8 + 80L;
         final long t31 = 0L - (l28 + ((l29 != 0L) ? 1L : 0L));
         final long t32 = l28;
         final int t33 = l42;
         Core1.f3(m, t30, t33 != 0 ? t31 : t32, 0L, 100L, 0L);
         L34: {
          if ((Words.get64(b, ((int) l8) - 58824) + (((l34 = (l29 = Words.get64(b, ((int) l8) - 58840)) + Words.get64(b, ((int) l8) - 58832)) + Long.MIN_VALUE < l29 + Long.MIN_VALUE) ? 1L : 0L)) == 0L) { break L34; }
          l50 = 0;
          break L9;
         }
         l50 = 0;
         if ((l42 = (((l35 = Words.get64(b, ((int) l8) - 58416)) | (l36 = Words.get64(b, ((int) l8) - 58408))) == 0L) ? 1 : 0) != 0) { break L9; }
         l33 = 0L;
         final long t35 = l34;
         final int t36 = l42 | ((((l37 = Words.get64(b, ((int) l8) - 58848) & -4L) | l34) == 0L) ? 1 : 0);
         final long t37 = (long) Long.numberOfLeadingZeros(l36);
         final long t38 = ((long) Long.numberOfLeadingZeros(l35)) + 64L;
         final int t39 = (l36 != 0L) ? 1 : 0;
         final long t40 = l29 = t39 != 0 ? t37 : t38;
         final long t41 = (long) Long.numberOfLeadingZeros(l34);
         final long t42 = ((long) Long.numberOfLeadingZeros(l37)) + 64L;
         final int t43 = (l34 != 0L) ? 1 : 0;
         final int t44 = ((l26 = t40 - (l28 = t43 != 0 ? t41 : t42)) + Long.MIN_VALUE > -9223372036854775681L) ? 1 : 0;
         final int t45 = ((l25 = 0L - ((l29 + Long.MIN_VALUE < l28 + Long.MIN_VALUE) ? 1L : 0L)) != 0L) ? 1 : 0;
         final int t46 = (l25 == 0L) ? 1 : 0;
         l28 = ((l42 = t36 | (t46 != 0 ? t44 : t45)) != 0) ? 0L : t35;
         l29 = l42 != 0 ? 0L : l37;
         if (l42 != 0) { break L10; }
         if (((l26 ^ 127L) | l25) == 0L) { break L10; }
         Core1.f4(m, l8 + 48L, l37, l34, 127 - ((int) l26));
         l27 = Words.get64(b, ((int) l8) - 58856);
         l29 = Words.get64(b, ((int) l8) - 58864);
         if (((l28 = l26 + 1L) | (l31 = l25 + ((l28 == 0L) ? 1L : 0L))) == 0L) { break L12; }
         Core1.f5(m, l8 + 32L, l37, l34, (int) l28);
         l38 = l35 + -1L;
         l39 = l36 - ((l35 == 0L) ? 1L : 0L);
         l32 = Words.get64(b, ((int) l8) - 58872);
         l25 = Words.get64(b, ((int) l8) - 58880);
         l26 = 0L;
         L47: while (true) {
          l40 = l26;
          l32 = ((l26 = (l32 << 1L) | (l25 >>> 63L)) - ((l26 = ((l39 - l26) - ((l38 + Long.MIN_VALUE < (l25 = (l25 << 1L) | (l27 >>> 63L)) + Long.MIN_VALUE) ? 1L : 0L)) >> 63L) & l36)) - ((l25 + Long.MIN_VALUE < (l41 = l26 & l35) + Long.MIN_VALUE) ? 1L : 0L);
          l26 = l26 & 1L;
          l25 = l25 - l41;
          l27 = 0L | ((l27 << 1L) | (l29 >>> 63L));
          l42 = (l28 == 0L) ? 1 : 0;
          l29 = l40 | (l29 << 1L);
          l28 = l40 = l28 + -1L;
          if (!((l40 | (l31 = l31 - (l42 & 0xffffffffL))) == 0L)) { continue L47; }
          break L11;
         }
        }
        l48 = 0;
        m.fill((int) (l8 + 224L), 0, (int) 112L);
        Core2.f79(m, l8 + 224L, l28, l29, l32, l31);
        l47 = 2;
        L48: {
         if ((b[((int) l8) - 58688] & 0xff) != 1) { break L48; }
         Words.put32(b, ((int) l16) - 58912, Words.get32(b, ((int) l8) - 58696));
         Words.put16(b, ((int) l16) - 58908, (short) (Words.get16(b, ((int) l8) - 58692) & 0xffff));
         Words.put64(b, ((int) l15) - 58912, Words.get64(b, ((int) l8) - 58736));
         Words.put64(b, ((int) l15) - 58904, Words.get64(b, ((int) l8) - 58728));
         Words.put64(b, ((int) l15) - 58896, Words.get64(b, ((int) l8) - 58720));
         Words.put64(b, ((int) l15) - 58888, Words.get64(b, ((int) l8) - 58712));
         Words.put64(b, ((int) l15) - 58880, Words.get64(b, ((int) l8) - 58704));
         b[((int) l8) - 58559] = (byte) l46;
         b[((int) l8) - 58560] = (byte) l44;
         Words.put64(b, ((int) l8) - 58536, l29);
         Words.put64(b, ((int) l8) - 58544, l28);
         Words.put64(b, ((int) l8) - 58552, l27);
         Words.put64(b, ((int) l14) - 58912, Words.get64(b, ((int) l8) - 58752));
         Words.put64(b, ((int) l14) - 58904, Words.get64(b, ((int) l8) - 58744));
         Words.put64(b, ((int) l8) - 58480, l31);
         Words.put64(b, ((int) l8) - 58488, l32);
         l47 = Core4.f125(m, l8 + 352L);
        }
        l43 = 10;
        l49 = 0;
        l50 = 0;
        l51 = 0;
        l30 = l29;
        break L6;
       }
       l26 = 0L;
      }
      l28 = (l27 << 1L) | (l29 >>> 63L);
      l29 = l26 | (l29 << 1L);
     }
     Core1.f3(m, l8 + 16L, l29, l28, l35, l36);
     l50 = 0;
     if (((l37 - (l27 = Words.get64(b, ((int) l8) - 58896))) | ((l34 - Words.get64(b, ((int) l8) - 58888)) - ((l37 + Long.MIN_VALUE < l27 + Long.MIN_VALUE) ? 1L : 0L))) != 0L) { break L9; }
     final long t49 = l29;
     final int t50 = (l29 + Long.MIN_VALUE < -8223372036854775808L) ? 1 : 0;
     final int t51 = (l28 == 0L) ? 1 : 0;
     l33 = ((l50 = t51 != 0 ? t50 : 0) != 0) ? t49 : 0L;
    }
    final int t52 = (int) l33;
    final int t53 = l50;
    l48 = t53 != 0 ? t52 : 0;
    final int t54 = (int) (l33 >>> 32L);
    final int t55 = l50;
    l49 = t55 != 0 ? t54 : 0;
    l43 = 11;
    break L6;
   }
   l50 = 0;
   l48 = l42;
   l51 = 0;
  }
 }
 m.kept[0] = l25;
 m.kept[1] = l26;
 m.kept[2] = l27;
 m.kept[3] = l28;
 m.kept[4] = l29;
 m.kept[5] = l30;
 m.kept[6] = l31;
 m.kept[7] = l32;
 m.kept[8] = l33;
 m.kept[9] = l34;
 m.kept[10] = l35;
 m.kept[11] = l36;
 m.kept[12] = l37;
 m.kept[13] = l38;
 m.kept[14] = l39;
 m.kept[15] = l40;
 m.kept[16] = l41;
 m.kept[17] = l42;
 m.kept[18] = l43;
 m.kept[19] = l44;
 m.kept[20] = l45;
 m.kept[21] = l46;
 m.kept[22] = l47;
 m.kept[23] = l48;
 m.kept[24] = l49;
 m.kept[25] = l50;
 m.kept[26] = l51;
 return exit;
}

static int f117_2(State m, long l8, long l12, long l23, long l24, long l27, long l28, long l29, int l42, int l44, int l45, int l46, int l52) {
 final byte[] b = m.bytes;
 int exit = 0;
 PART: {
  L57: {
   L58: {
    L59: {
     L60: {
      L61: {
       L62: {
        L63: {
         L64: {
          L65: {
           L66: {
            L67: {
             if (l24 + Long.MIN_VALUE < -9223372036854775805L) { break L67; }
             if (((l46 = b[((int) ((l29 = l23 + l24) + -3L)) - 58912] & 0xff) & 240) != 224) { break L66; }
             l42 = (((l46 << 12) | (l45 = b[((int) (l29 + -1L)) - 58912] & 0xff)) + ((l44 = b[((int) (l29 + -2L)) - 58912] & 0xff) << 6)) + -925824;
             l29 = l24 + -3L;
             if (Words.get32(b, ((int) ((l28 = ((((l46 = ((l44 << 8) | (l45 << 16)) | l46) & 0xffffffffL) * 953497L) >>> 22L) & 1016L) + 66852L)) - 58912) == l46) { break L65; }
             break L63;
            }
            if (l24 == 0L) { break L58; }
           }
           l46 = 0;
           if ((l42 = (int) b[((int) (l23 + (l29 = l24 + -1L))) - 58912]) >= 0) { break L64; }
           l29 = -2L;
           L68: {
            if ((b[((int) ((l28 = l23 + l24) + -2L)) - 58912] & 0xff) + Integer.MIN_VALUE > -2147483457) { break L68; }
            l29 = ((b[((int) (l28 + -3L)) - 58912] & 0xff) + Integer.MIN_VALUE > -2147483457) ? -3L : -4L;
           }
           l42 = (l45 = (int) b[((int) (l28 = l23 + (l29 = l29 + l24))) - 58912]) & 255;
           if (l45 > -1) { break L64; }
           l44 = (b[((int) l28) - 58911] & 0xff) & 63;
           L69: {
            if (l45 + Integer.MIN_VALUE > 2147483615) { break L69; }
            l42 = ((l42 << 6) & 1984) | l44;
            break L64;
           }
           l52 = (b[((int) l28) - 58910] & 0xff) & 63;
           L70: {
            L71: {
             if (l45 + Integer.MIN_VALUE > 2147483631) { break L71; }
             l42 = ((l44 << 6) | ((l42 << 12) & 61440)) | l52;
             break L70;
            }
            l42 = ((l52 << 6) | ((l44 << 12) | ((l42 << 18) & 1835008))) | ((b[((int) l28) - 58909] & 0xff) & 63);
           }
           if ((l42 + -2048) + Integer.MIN_VALUE > -2147420161) { break L64; }
           if (Words.get32(b, ((int) ((l28 = ((((l46 = (((l42 >>> 12) | ((l42 << 2) & 16128)) | ((l42 << 16) & 4128768)) | 8421600) & 0xffffffffL) * 953497L) >>> 22L) & 1016L) + 66852L)) - 58912) != l46) { break L62; }
          }
          if ((b[((int) (l28 + 66856L)) - 58912] & 0xff) != 0) { break L63; }
          break L60;
         }
         if ((l42 + -48) + Integer.MIN_VALUE >= -2147483638) { break L63; }
         l44 = 1;
         break L57;
        }
        if (l42 + Integer.MIN_VALUE > -2147483521) { break L62; }
        l44 = 1;
        l46 = 0;
        if (l42 == 95) { break L57; }
        if ((l42 + -44) + Integer.MIN_VALUE < -2147483645) { break L61; }
        if ((l42 + -48) + Integer.MIN_VALUE < -2147483638) { break L57; }
        if (((l42 & 95) + -65) + Integer.MIN_VALUE >= -2147483622) { break L58; }
        break L57;
       }
       l44 = 0;
       l46 = 1;
       L72: {
        L73: {
         if (l42 > 24185) { break L73; }
         L74: {
          if (l42 > 21316) { break L74; }
          L75: {
           if (l42 > 20959) { break L75; }
           if (l42 == 20313) { break L58; }
           if (l42 == 20358) { break L58; }
           break L72;
          }
          if (l42 == 20960) { break L57; }
          if (l42 == 20986) { break L58; }
          break L72;
         }
         L76: {
          switch (l42 + -21317) {
          case 0: case 7: break L60;
          case 1: case 2: case 3: case 4: case 5: case 6: break L72;
          default: break L76;
          }
         }
         if (l42 == 22810) { break L58; }
         if (l42 == 22909) { break L58; }
         break L72;
        }
        L77: {
         if (l42 > 26468) { break L77; }
         L78: {
          switch (l42 + -24186) {
          case 0: break L60;
          case 1: case 2: case 3: break L72;
          case 4: break L57;
          default: break L78;
          }
         }
         L79: {
          switch (l42 + -25968) {
          case 0: case 8: break L57;
          case 1: case 2: case 3: case 4: case 5: case 6: case 7: break L72;
          default: break L79;
          }
         }
         if (l42 == 24319) { break L60; }
         break L72;
        }
        L80: {
         if (l42 > 39191) { break L80; }
         if (l42 == 26469) { break L58; }
         if (l42 != 28857) { break L72; }
         break L61;
        }
        if (l42 == 39192) { break L58; }
        if (l42 == 40670) { break L61; }
       }
       if ((l42 + -65296) + Integer.MIN_VALUE > -2147483639) { break L58; }
       break L60;
      }
      Words.put64(b, ((int) l8) - 58664, 0L);
      Words.put64(b, ((int) l8) - 58672, 0L);
      Words.put64(b, ((int) l8) - 58680, 0L);
      Words.put64(b, ((int) l8) - 58688, 0L);
      L81: {
       L82: {
        L83: {
         L84: {
          L85: {
           L86: {
            if (l29 + Long.MIN_VALUE < -9223372036854775805L) { break L86; }
            if (((l42 = b[((int) ((l28 = l23 + l29) + -3L)) - 58912] & 0xff) & 240) != 224) { break L85; }
            Words.put64(b, ((int) l8) - 58672, l23);
            Words.put64(b, ((int) l8) - 58688, 1L);
            Words.put64(b, ((int) l8) - 58664, l29 + -3L);
            Words.put32(b, ((int) l8) - 58680, (((l42 << 12) | (l46 = b[((int) (l28 + -1L)) - 58912] & 0xff)) + ((l45 = b[((int) (l28 + -2L)) - 58912] & 0xff) << 6)) + -925824);
            final int t87 = (int) l8;
            final int t88 = b[((int) ((l29 = ((((l42 = ((l45 << 8) | (l46 << 16)) | l42) & 0xffffffffL) * 953497L) >>> 22L) & 1016L) + 66857L)) - 58912] & 0xff;
            final int t89 = l42 = (Words.get32(b, State.far((int) l29, 66852)) == l42) ? 1 : 0;
            b[t87 - 58675] = (byte) (t89 != 0 ? t88 : 0);
            final int t90 = (int) l8;
            final int t91 = b[((int) (l29 + 66856L)) - 58912] & 0xff;
            final int t92 = l42;
            b[t90 - 58676] = (byte) (t92 != 0 ? t91 : 2);
            break L81;
           }
           if (l29 == 0L) { break L84; }
          }
          if ((l42 = (int) b[((int) (l23 + (l28 = l29 + -1L))) - 58912]) >= 0) { break L83; }
          l28 = -2L;
          L93: {
           if ((b[((int) ((l27 = l23 + l29) + -2L)) - 58912] & 0xff) + Integer.MIN_VALUE > -2147483457) { break L93; }
           l28 = ((b[((int) (l27 + -3L)) - 58912] & 0xff) + Integer.MIN_VALUE > -2147483457) ? -3L : -4L;
          }
          l42 = (l46 = (int) b[((int) (l29 = l23 + (l28 = l28 + l29))) - 58912]) & 255;
          if (l46 > -1) { break L83; }
          l45 = (b[((int) l29) - 58911] & 0xff) & 63;
          L94: {
           if (l46 + Integer.MIN_VALUE > 2147483615) { break L94; }
           l42 = ((l42 << 6) & 1984) | l45;
           break L83;
          }
          l44 = (b[((int) l29) - 58910] & 0xff) & 63;
          L95: {
           L96: {
            if (l46 + Integer.MIN_VALUE > 2147483631) { break L96; }
            l42 = ((l45 << 6) | ((l42 << 12) & 61440)) | l44;
            break L95;
           }
           l42 = ((l44 << 6) | ((l45 << 12) | ((l42 << 18) & 1835008))) | ((b[((int) l29) - 58909] & 0xff) & 63);
          }
          if ((l42 + -2048) + Integer.MIN_VALUE > -2147420161) { break L83; }
          final int t97 = b[((int) ((l29 = ((((l46 = (((l42 >>> 12) | ((l42 << 2) & 16128)) | ((l42 << 16) & 4128768)) | 8421600) & 0xffffffffL) * 953497L) >>> 22L) & 1016L) + 66857L)) - 58912] & 0xff;
          final int t98 = l45 = (Words.get32(b, State.far((int) l29, 66852)) == l46) ? 1 : 0;
          l46 = t98 != 0 ? t97 : 0;
          final int t99 = b[((int) (l29 + 66856L)) - 58912] & 0xff;
          final int t100 = l45;
          l45 = t100 != 0 ? t99 : 2;
          break L82;
         }
         Words.put64(b, ((int) l12) - 58912, 0L);
         Words.put64(b, ((int) l12) - 58904, 0L);
         Words.put64(b, ((int) l8) - 58682, 0L);
         Words.put64(b, ((int) l8) - 58688, 0L);
         break L81;
        }
        final int t101 = l46 = l42 + -48;
        final int t102 = l45 = (l46 + Integer.MIN_VALUE < -2147483638) ? 1 : 0;
        l46 = t102 != 0 ? t101 : 0;
        l45 = l45 != 0 ? 0 : 2;
       }
       Words.put64(b, ((int) l8) - 58664, l28);
       Words.put64(b, ((int) l8) - 58672, l23);
       b[((int) l8) - 58675] = (byte) l46;
       b[((int) l8) - 58676] = (byte) l45;
       Words.put32(b, ((int) l8) - 58680, l42);
       Words.put64(b, ((int) l8) - 58688, 1L);
      }
      l44 = f110(m, l8 + 224L);
      break L59;
     }
     l44 = 1;
    }
    l46 = 0;
    break L57;
   }
   l46 = 0;
   l44 = 0;
  }
 }
 m.kept[0] = l27;
 m.kept[1] = l28;
 m.kept[2] = l29;
 m.kept[3] = l42;
 m.kept[4] = l44;
 m.kept[5] = l45;
 m.kept[6] = l46;
 m.kept[7] = l52;
 return exit;
}

static int f117(State m, long l0, long l1, long l2, int l3, int l4, long l5, long l6, long l7) {
 final byte[] b = m.bytes;
 long l8 = 0;
 long l9 = 0;
 long l10 = 0;
 long l11 = 0;
 long l12 = 0;
 long l13 = 0;
 long l14 = 0;
 long l15 = 0;
 long l16 = 0;
 long l17 = 0;
 long l18 = 0;
 long l19 = 0;
 long l20 = 0;
 long l21 = 0;
 long l22 = 0;
 long l23 = 0;
 long l24 = 0;
 long l25 = 0;
 long l26 = 0;
 long l27 = 0;
 long l28 = 0;
 long l29 = 0;
 long l30 = 0;
 long l31 = 0;
 long l32 = 0;
 long l33 = 0;
 long l34 = 0;
 long l35 = 0;
 long l36 = 0;
 long l37 = 0;
 long l38 = 0;
 long l39 = 0;
 long l40 = 0;
 long l41 = 0;
 int l42 = 0;
 int l43 = 0;
 int l44 = 0;
 int l45 = 0;
 int l46 = 0;
 int l47 = 0;
 int l48 = 0;
 int l49 = 0;
 int l50 = 0;
 int l51 = 0;
 int l52 = 0;
 int l53 = 0;
 int l54 = 0;
 m.g0 = l8 = m.g0 - 528L;
 L1: {
  if ((l8 = l8) < 16L) { break L1; }
  L2: {
   L3: {
    if (l1 == l2) { break L3; }
    l42 = 5;
    l9 = 0L;
    if (l1 + Long.MIN_VALUE < l2 + Long.MIN_VALUE) { break L2; }
    if (((int) b[((int) (l0 + l2)) - 58912]) < -64) { break L2; }
   }
   l9 = 0L;
   Words.put64(b, ((int) l8) - 58760, 0L);
   Words.put64(b, ((int) l8) - 58768, 0L);
   Words.put64(b, ((int) l8) - 58776, 0L);
   Words.put64(b, ((int) l8) - 58784, 0L);
   Words.put64(b, ((int) l8) - 58792, 0L);
   Words.put64(b, ((int) l8) - 58800, 0L);
   Words.put64(b, ((int) l8) - 58808, 0L);
   L4: {
    if (l6 == 0L) { break L4; }
    l10 = l0 + l2;
    l11 = l1 - l2;
    l12 = l8 + 240L;
    l13 = (l8 + 224L) | 2L;
    l14 = (l8 + 352L) + 88L;
    l15 = (l8 + 352L) + 32L;
    l16 = (l8 + 352L) | 2L;
    l17 = (l8 + 224L) + 88L;
    l18 = (l8 + 224L) + 32L;
    l19 = l8 + 328L;
    l20 = l8 + 272L;
    l21 = l8 + 242L;
    l9 = 0L;
    L5: while (true) {
     f118(m, l8 + 104L, l0, l1, l10, l11, l3, l4);
     if ((b[((int) l8) - 58808] & 0xff) != 1) { break L4; }
     l11 = Words.get64(b, ((int) l8) - 58760);
     l10 = Words.get64(b, ((int) l8) - 58768);
     l2 = Words.get64(b, ((int) l8) - 58776);
     l22 = Words.get64(b, ((int) l8) - 58784);
     l23 = Words.get64(b, ((int) l8) - 58800);
     l24 = Words.get64(b, ((int) l8) - 58792);
     l43 = 0;
     m.fill((int) (l8 + 224L), 0, (int) 128L);
     Core4.f119(m, l8 + 224L, l0, l1, l25 = l0 + l24, l26 = l1 - l24, l3, l4);
     Words.put32(b, ((int) l8) - 58696, Words.get32(b, ((int) l21) - 58912));
     Words.put16(b, ((int) l8) - 58692, (short) (Words.get16(b, ((int) l21) - 58908) & 0xffff));
     Words.put64(b, ((int) l8) - 58736, Words.get64(b, ((int) l20) - 58912));
     Words.put64(b, ((int) l8) - 58728, Words.get64(b, ((int) l20) - 58904));
     Words.put64(b, ((int) l8) - 58720, Words.get64(b, ((int) l20) - 58896));
     Words.put64(b, ((int) l8) - 58712, Words.get64(b, ((int) l20) - 58888));
     Words.put64(b, ((int) l8) - 58704, Words.get64(b, ((int) l20) - 58880));
     l44 = b[((int) l8) - 58672] & 0xff;
     l45 = b[((int) l8) - 58680] & 0xff;
     l27 = Words.get64(b, ((int) l8) - 58664);
     l28 = Words.get64(b, ((int) l8) - 58656);
     l29 = Words.get64(b, ((int) l8) - 58648);
     l42 = b[((int) l8) - 58688] & 0xff;
     l46 = b[((int) l8) - 58671] & 0xff;
     Words.put64(b, ((int) l8) - 58752, Words.get64(b, ((int) l19) - 58912));
     Words.put64(b, ((int) l8) - 58744, Words.get64(b, ((int) l19) - 58904));
     l30 = 0L;
     f117_1(m, l8, l13, l14, l15, l16, l17, l18, l23, l24, l25, l26, l27, l28, l29, l30, l31, l32, l33, l34, l35, l36, l37, l38, l39, l40, l41, l42, l43, l44, l45, l46, l47, l48, l49, l50, l51);
     l25 = m.kept[0];
     l26 = m.kept[1];
     l27 = m.kept[2];
     l28 = m.kept[3];
     l29 = m.kept[4];
     l30 = m.kept[5];
     l31 = m.kept[6];
     l32 = m.kept[7];
     l33 = m.kept[8];
     l34 = m.kept[9];
     l35 = m.kept[10];
     l36 = m.kept[11];
     l37 = m.kept[12];
     l38 = m.kept[13];
     l39 = m.kept[14];
     l40 = m.kept[15];
     l41 = m.kept[16];
     l42 = (int) m.kept[17];
     l43 = (int) m.kept[18];
     l44 = (int) m.kept[19];
     l45 = (int) m.kept[20];
     l46 = (int) m.kept[21];
     l47 = (int) m.kept[22];
     l48 = (int) m.kept[23];
     l49 = (int) m.kept[24];
     l50 = (int) m.kept[25];
     l51 = (int) m.kept[26];
     f117_2(m, l8, l12, l23, l24, l27, l28, l29, l42, l44, l45, l46, l52);
     l27 = m.kept[0];
     l28 = m.kept[1];
     l29 = m.kept[2];
     l42 = (int) m.kept[3];
     l44 = (int) m.kept[4];
     l45 = (int) m.kept[5];
     l46 = (int) m.kept[6];
     l52 = (int) m.kept[7];
     L104: {
      L105: {
       L106: {
        L107: {
         L108: {
          L109: {
           L110: {
            L111: {
             L112: {
              L113: {
               if (l11 + Long.MIN_VALUE < -9223372036854775805L) { break L113; }
               if (((l42 = b[((int) l10) - 58912] & 0xff) & 240) != 224) { break L112; }
               l45 = (((l52 = b[((int) l10) - 58911] & 0xff) << 8) | ((l53 = b[((int) l10) - 58910] & 0xff) << 16)) | l42;
               l42 = (((l42 << 12) | l53) + (l52 << 6)) + -925824;
               l28 = l11 + -3L;
               l29 = l10 + 3L;
               if (l45 != Words.get32(b, ((int) ((l27 = (((l45 & 0xffffffffL) * 953497L) >>> 22L) & 1016L) + 66852L)) - 58912)) { break L110; }
               break L111;
              }
              if (l11 == 0L) { break L105; }
              l42 = b[((int) l10) - 58912] & 0xff;
             }
             l29 = 1L;
             L114: {
              if (((int) (byte) l42) > -1) { break L114; }
              l45 = (b[((int) l10) - 58911] & 0xff) & 63;
              L115: {
               if (l42 + Integer.MIN_VALUE > -2147483425) { break L115; }
               l42 = ((l42 << 6) & 1984) | l45;
               l29 = 2L;
               break L114;
              }
              l52 = (b[((int) l10) - 58910] & 0xff) & 63;
              L116: {
               if (l42 + Integer.MIN_VALUE > -2147483409) { break L116; }
               l42 = ((l45 << 6) | ((l42 << 12) & 61440)) | l52;
               l29 = 3L;
               break L114;
              }
              l42 = ((l52 << 6) | ((l45 << 12) | ((l42 << 18) & 1835008))) | ((b[((int) l10) - 58909] & 0xff) & 63);
              l29 = 4L;
             }
             l28 = l11 - l29;
             l29 = l10 + l29;
             L117: {
              if ((l42 + -2048) + Integer.MIN_VALUE > -2147420161) { break L117; }
              if (Words.get32(b, ((int) ((l27 = ((((l45 = (((l42 >>> 12) | ((l42 << 2) & 16128)) | ((l42 << 16) & 4128768)) | 8421600) & 0xffffffffL) * 953497L) >>> 22L) & 1016L) + 66852L)) - 58912) == l45) { break L111; }
              break L109;
             }
             if ((l42 + -48) + Integer.MIN_VALUE >= -2147483638) { break L110; }
             break L107;
            }
            if ((b[((int) (l27 + 66856L)) - 58912] & 0xff) == 0) { break L107; }
           }
           if (l42 + Integer.MIN_VALUE > -2147483521) { break L109; }
           l52 = 1;
           l45 = 0;
           if (l42 == 95) { break L104; }
           if ((l42 + -44) + Integer.MIN_VALUE < -2147483645) { break L108; }
           if ((l42 + -48) + Integer.MIN_VALUE < -2147483638) { break L104; }
           if (((l42 & 95) + -65) + Integer.MIN_VALUE >= -2147483622) { break L105; }
           break L104;
          }
          l52 = 0;
          l45 = 1;
          L118: {
           L119: {
            if (l42 > 24185) { break L119; }
            L120: {
             L121: {
              if (l42 > 21316) { break L121; }
              L122: {
               if (l42 > 20959) { break L122; }
               if (l42 == 20313) { break L104; }
               if (l42 != 20358) { break L118; }
               break L104;
              }
              if (l42 == 20960) { break L104; }
              if (l42 == 20986) { break L120; }
              break L118;
             }
             L123: {
              switch (l42 + -21317) {
              case 0: case 7: break L107;
              case 1: case 2: case 3: case 4: case 5: case 6: break L118;
              default: break L123;
              }
             }
             if (l42 == 22810) { break L104; }
             if (l42 != 22909) { break L118; }
            }
            l45 = f111(m, l42, l29, l28);
            break L104;
           }
           L124: {
            if (l42 > 26468) { break L124; }
            L125: {
             switch (l42 + -24186) {
             case 0: break L107;
             case 1: case 2: case 3: break L118;
             case 4: break L104;
             default: break L125;
             }
            }
            L126: {
             switch (l42 + -25968) {
             case 0: case 8: break L105;
             case 1: case 2: case 3: case 4: case 5: case 6: case 7: break L118;
             default: break L126;
             }
            }
            if (l42 == 24319) { break L107; }
            break L118;
           }
           L127: {
            if (l42 > 39191) { break L127; }
            if (l42 == 26469) { break L104; }
            if (l42 != 28857) { break L118; }
            break L108;
           }
           if (l42 == 39192) { break L104; }
           if (l42 == 40670) { break L108; }
          }
          if ((l42 + -65296) + Integer.MIN_VALUE > -2147483639) { break L105; }
          break L107;
         }
         Words.put64(b, ((int) l8) - 58664, 0L);
         Words.put64(b, ((int) l8) - 58672, 0L);
         Words.put64(b, ((int) l8) - 58680, 0L);
         Words.put64(b, ((int) l8) - 58688, 0L);
         L128: {
          L129: {
           L130: {
            L131: {
             if (l28 + Long.MIN_VALUE < -9223372036854775805L) { break L131; }
             if (((l42 = b[((int) l29) - 58912] & 0xff) & 240) != 224) { break L130; }
             l45 = b[((int) l29) - 58910] & 0xff;
             l52 = b[((int) l29) - 58911] & 0xff;
             Words.put64(b, ((int) l8) - 58664, l28 + -3L);
             Words.put64(b, ((int) l8) - 58672, l29 + 3L);
             Words.put64(b, ((int) l8) - 58688, 1L);
             Words.put32(b, ((int) l8) - 58680, ((l45 | (l42 << 12)) + (l52 << 6)) + -925824);
             final int t132 = (int) l8;
             final int t133 = b[((int) ((l29 = ((((l42 = ((l52 << 8) | (l45 << 16)) | l42) & 0xffffffffL) * 953497L) >>> 22L) & 1016L) + 66857L)) - 58912] & 0xff;
             final int t134 = l42 = (Words.get32(b, State.far((int) l29, 66852)) == l42) ? 1 : 0;
             b[t132 - 58675] = (byte) (t134 != 0 ? t133 : 0);
             final int t135 = (int) l8;
             final int t136 = b[((int) (l29 + 66856L)) - 58912] & 0xff;
             final int t137 = l42;
             b[t135 - 58676] = (byte) (t137 != 0 ? t136 : 2);
             break L128;
            }
            if (l28 == 0L) { break L129; }
            l42 = b[((int) l29) - 58912] & 0xff;
           }
           l27 = 1L;
           L138: {
            if (((int) (byte) l42) > -1) { break L138; }
            l45 = (b[((int) l29) - 58911] & 0xff) & 63;
            L139: {
             if (l42 + Integer.MIN_VALUE > -2147483425) { break L139; }
             l42 = ((l42 << 6) & 1984) | l45;
             l27 = 2L;
             break L138;
            }
            l52 = (b[((int) l29) - 58910] & 0xff) & 63;
            L140: {
             if (l42 + Integer.MIN_VALUE > -2147483409) { break L140; }
             l42 = ((l45 << 6) | ((l42 << 12) & 61440)) | l52;
             l27 = 3L;
             break L138;
            }
            l42 = ((l52 << 6) | ((l45 << 12) | ((l42 << 18) & 1835008))) | ((b[((int) l29) - 58909] & 0xff) & 63);
            l27 = 4L;
           }
           l28 = l28 - l27;
           l29 = l29 + l27;
           L141: {
            L142: {
             if ((l42 + -2048) + Integer.MIN_VALUE > -2147420161) { break L142; }
             final int t143 = b[((int) ((l27 = ((((l45 = (((l42 >>> 12) | ((l42 << 2) & 16128)) | ((l42 << 16) & 4128768)) | 8421600) & 0xffffffffL) * 953497L) >>> 22L) & 1016L) + 66857L)) - 58912] & 0xff;
             final int t144 = l52 = (Words.get32(b, State.far((int) l27, 66852)) == l45) ? 1 : 0;
             l45 = t144 != 0 ? t143 : 0;
             final int t145 = b[((int) (l27 + 66856L)) - 58912] & 0xff;
             final int t146 = l52;
             l52 = t146 != 0 ? t145 : 2;
             break L141;
            }
            final int t147 = l45 = l42 + -48;
            final int t148 = l52 = (l45 + Integer.MIN_VALUE < -2147483638) ? 1 : 0;
            l45 = t148 != 0 ? t147 : 0;
            l52 = l52 != 0 ? 0 : 2;
           }
           Words.put64(b, ((int) l8) - 58664, l28);
           Words.put64(b, ((int) l8) - 58672, l29);
           b[((int) l8) - 58675] = (byte) l45;
           b[((int) l8) - 58676] = (byte) l52;
           Words.put32(b, ((int) l8) - 58680, l42);
           Words.put64(b, ((int) l8) - 58688, 1L);
           break L128;
          }
          Words.put64(b, ((int) l12) - 58912, 0L);
          Words.put64(b, ((int) l12) - 58904, 0L);
          Words.put64(b, ((int) l8) - 58682, 0L);
          Words.put64(b, ((int) l8) - 58688, 0L);
         }
         l52 = f112(m, l8 + 224L);
         break L106;
        }
        l52 = 1;
       }
       l45 = 0;
       break L104;
      }
      l45 = 0;
      l52 = 0;
     }
     Words.put32(b, ((int) l8) - 58688, 0);
     L149: {
      L150: {
       L151: {
        L152: {
         L153: {
          L154: {
           L155: {
            L156: {
             if ((l29 = l2 + -1L) + Long.MIN_VALUE > -9223372036854775806L) { break L156; }
             L157: {
              switch ((int) l29) {
              case 1: break L156;
              case 2: break L157;
              default: break L153;
              }
             }
             if ((l42 = (Words.get32(b, State.far((int) (l29 = ((((l42 = (((b[((int) l22) - 58911] & 0xff) << 8) | (l54 = b[((int) l22) - 58912] & 0xff)) | ((b[((int) l22) - 58910] & 0xff) << 16)) & 0xffffffffL) * 953497L) >>> 22L) & 1016L), 66852)) != l42) ? 1 : 0) != 0) { break L155; }
             l53 = 1;
             final int t158 = b[((int) (l29 + 66856L)) - 58912] & 0xff;
             final int t159 = l42;
             if (((l42 = t159 != 0 ? 0 : t158) & 255) == 2) { break L155; }
             break L152;
            }
            if (l2 + Long.MIN_VALUE > -9223372036854775804L) { break L151; }
            if (l2 == 0L) { break L154; }
            l54 = b[((int) l22) - 58912] & 0xff;
           }
           if (((int) (byte) l54) > -1) { break L151; }
          }
          f113(m, l8 + 224L, l22, l2);
          if ((b[((int) l8) - 58688] & 0xff) != 1) { break L151; }
          l53 = b[((int) l8) - 58685] & 0xff;
          l42 = b[((int) l8) - 58687] & 0xff;
          break L152;
         }
         l42 = ((l53 = ((((b[((int) l22) - 58912] & 0xff) + -58) & 255) + Integer.MIN_VALUE < -2147483402) ? 1 : 0) != 0) ? 2 : 0;
        }
        final int t160 = l52 != 0 ? 0 : 2;
        final int t161 = l44;
        l42 = (t161 != 0 ? 0 : t160) | (((l44 = l42 & 255) == 0) ? 1 : 0);
        l53 = ((l53 & 1) != 0) ? 8 : 0;
        l29 = l2 + l24;
        if ((l45 | (l46 & ((l44 == 1) ? 1 : 0))) != 0) { break L150; }
        break L149;
       }
       l42 = f114(m, l22, l2);
       L162: {
        L163: {
         L164: {
          if (l46 == 0) { break L164; }
          if ((l45 | f115(m, l22, l2)) != 0) { break L163; }
          break L162;
         }
         if (l45 == 0) { break L162; }
        }
        l53 = 0;
        final int t165 = l52 != 0 ? 0 : 2;
        final int t166 = l44;
        l42 = (t166 != 0 ? 0 : t165) | l42;
        l29 = l2 + l24;
        break L150;
       }
       l53 = 0;
       final int t167 = l52 != 0 ? 0 : 2;
       final int t168 = l44;
       l42 = (t168 != 0 ? 0 : t167) | l42;
       l29 = l2 + l24;
       if (f116(m, l22, l2) == 0) { break L149; }
      }
      l42 = l42 | 4;
     }
     Words.put64(b, ((int) l8) - 58648, l11);
     Words.put64(b, ((int) l8) - 58656, l10);
     Words.put64(b, ((int) l8) - 58664, l2);
     Words.put64(b, ((int) l8) - 58672, l22);
     Words.put64(b, ((int) l8) - 58680, l24);
     Words.put64(b, ((int) l8) - 58688, l23);
     Core4.f126(m, l8, l8 + 224L);
     l46 = b[((int) l8) - 58911] & 0xff;
     l45 = b[((int) l8) - 58912] & 0xff;
     Words.put32(b, ((int) (l2 = l5 + (l9 * 56L))) - 58860, 0);
     Words.put32(b, ((int) l2) - 58864, l51);
     Words.put32(b, ((int) l2) - 58868, l50);
     Words.put32(b, ((int) l2) - 58872, l49);
     Words.put32(b, ((int) l2) - 58876, l48);
     Words.put32(b, ((int) l2) - 58884, l47);
     Words.put32(b, ((int) l2) - 58888, l43);
     Words.put64(b, ((int) l2) - 58896, l30);
     Words.put64(b, ((int) l2) - 58904, l29);
     Words.put64(b, ((int) l2) - 58912, l24);
     final int t169 = (int) l2;
     final int t170 = l53 | l42;
     final int t171 = ((l46 + 1) & 255) << 4;
     final int t172 = l45 & 1;
     Words.put32(b, t169 - 58880, t170 | (t172 != 0 ? t171 : 0));
     if ((l9 = l9 + 1L) != l6) { continue L5; }
     break L5;
    }
    l9 = l6;
   }
   l42 = 0;
  }
  Words.put64(b, ((int) l7) - 58912, l9);
  m.g0 = l8 + 528L;
  final int t173 = l42;
  return t173;
 }
 throw State.trap();
}

static void f118(State m, long l0, long l1, long l2, long l3, long l4, int l5, int l6) {
 final byte[] b = m.bytes;
 long l7 = 0;
 long l8 = 0;
 long l9 = 0;
 long l10 = 0;
 int l11 = 0;
 int l12 = 0;
 int l13 = 0;
 int l14 = 0;
 m.g0 = l7 = m.g0 - 128L;
 L1: {
  L2: {
   if ((l7 = l7) < 16L) { break L2; }
   L3: {
    if (l4 == 0L) { break L3; }
    L4: while (true) {
     L5: {
      L6: {
       if ((l11 = (int) b[((int) l3) - 58912]) <= -1) { break L6; }
       l8 = 1L;
       break L5;
      }
      L7: {
       if (l11 + Integer.MIN_VALUE >= 2147483616) { break L7; }
       l8 = 2L;
       break L5;
      }
      l8 = (l11 + Integer.MIN_VALUE < 2147483632) ? 3L : 4L;
     }
     l12 = l11 & 255;
     m.fill((int) l7, 0, (int) 128L);
     L8: {
      L9: {
       L10: {
        L11: {
         L12: {
          L13: {
           if (l4 + Long.MIN_VALUE < -9223372036854775805L) { break L13; }
           if ((l12 & 240) != 224) { break L13; }
           l11 = (((l13 = b[((int) l3) - 58911] & 0xff) << 8) | ((l14 = b[((int) l3) - 58910] & 0xff) << 16)) | l12;
           l12 = (((l12 << 12) | l14) + (l13 << 6)) + -925824;
           if (l11 == Words.get32(b, ((int) ((l9 = (((l11 & 0xffffffffL) * 953497L) >>> 22L) & 1016L) + 66852L)) - 58912)) { break L12; }
           break L10;
          }
          L14: {
           if (l11 > -1) { break L14; }
           l13 = (b[((int) l3) - 58911] & 0xff) & 63;
           L15: {
            if (l11 + Integer.MIN_VALUE > 2147483615) { break L15; }
            l12 = ((l12 << 6) & 1984) | l13;
            break L14;
           }
           l14 = (b[((int) l3) - 58910] & 0xff) & 63;
           L16: {
            if (l11 + Integer.MIN_VALUE > 2147483631) { break L16; }
            l12 = ((l13 << 6) | ((l12 << 12) & 61440)) | l14;
            break L14;
           }
           l12 = ((l14 << 6) | ((l13 << 12) | ((l12 << 18) & 1835008))) | ((b[((int) l3) - 58909] & 0xff) & 63);
          }
          if ((l12 + -2048) + Integer.MIN_VALUE > -2147420161) { break L11; }
          if (Words.get32(b, ((int) ((l9 = ((((l11 = (((l12 >>> 12) | ((l12 << 2) & 16128)) | ((l12 << 16) & 4128768)) | 8421600) & 0xffffffffL) * 953497L) >>> 22L) & 1016L) + 66852L)) - 58912) != l11) { break L10; }
         }
         if ((b[((int) (l9 + 66856L)) - 58912] & 0xff) != 2) { break L9; }
         break L10;
        }
        if ((l12 + -48) + Integer.MIN_VALUE < -2147483638) { break L9; }
       }
       if ((l12 + -48) + Integer.MIN_VALUE < -2147483638) { break L9; }
       if ((l12 + -65296) + Integer.MIN_VALUE < -2147483638) { break L9; }
       L17: {
        L18: {
         if (l12 > 20997) { break L18; }
         L19: {
          if (l12 > 20003) { break L19; }
          L20: {
           if (l12 > 8239) { break L20; }
           L21: {
            switch (l12 + -32) {
            case 0: case 5: break L9;
            case 1: case 2: case 3: case 4: break L17;
            default: break L21;
            }
           }
           if (l12 != 165) { break L17; }
           break L9;
          }
          if (l12 == 8240) { break L9; }
          if (l12 == 8722) { break L9; }
          if (l12 != 19979) { break L17; }
          break L9;
         }
         L22: {
          if (l12 > 20190) { break L22; }
          L23: {
           switch (l12 + -20004) {
           case 0: case 6: break L9;
           case 1: case 2: case 3: case 4: case 5: break L17;
           default: break L23;
           }
          }
          if (l12 != 20043) { break L17; }
          break L9;
         }
         if (l12 == 20191) { break L9; }
         if (l12 == 20491) { break L9; }
         if (l12 != 20841) { break L17; }
         break L9;
        }
        L24: {
         if (l12 > 35999) { break L24; }
         L25: {
          if (l12 > 21447) { break L25; }
          L26: {
           switch (l12 + -21315) {
           case 0: case 2: break L9;
           case 1: break L17;
           default: break L26;
           }
          }
          if (l12 != 20998) { break L17; }
          break L9;
         }
         if (l12 == 21448) { break L9; }
         if (l12 == 24319) { break L9; }
         if (l12 != 28857) { break L17; }
         break L9;
        }
        L27: {
         if (l12 > 40669) { break L27; }
         if (l12 == 36000) { break L9; }
         if (l12 != 36127) { break L17; }
         break L9;
        }
        if (l12 == 40670) { break L9; }
        if (l12 == 65285) { break L9; }
        if (l12 == 65509) { break L9; }
       }
       L28: {
        if (l12 + Integer.MIN_VALUE < -2147483604) { break L28; }
        if (l12 + Integer.MIN_VALUE < -2147483601) { break L9; }
        if ((l12 + -65292) + Integer.MIN_VALUE < -2147483645) { break L9; }
       }
       if (Core4.f127(m, l12) == 0) { break L8; }
      }
      Core4.f119(m, l7, l1, l2, l3, l4, l5, l6);
      if ((b[((int) l7) - 58912] & 0xff) != 1) { break L8; }
      l8 = Words.get64(b, ((int) l7) - 58800);
      l9 = Words.get64(b, ((int) l7) - 58808);
      l10 = Words.get64(b, ((int) l7) - 58888);
      L29: {
       L30: {
        L31: {
         L32: {
          switch ((int) (b[((int) l7) - 58904] & 0xffL)) {
          case 1: break L32;
          case 2: break L29;
          case 3: break L31;
          default: break L30;
          }
         }
         l9 = l8;
         l8 = Words.get64(b, ((int) l7) - 58792);
         break L29;
        }
        l9 = Words.get64(b, ((int) l7) - 58896);
        l8 = l10;
        break L29;
       }
       l8 = Words.get64(b, ((int) l7) - 58880);
       l9 = l10;
      }
      Words.put64(b, ((int) l0) - 58912, 1L);
      Words.put64(b, ((int) (l0 + 48L)) - 58912, l8);
      Words.put64(b, ((int) (l0 + 40L)) - 58912, l9);
      Words.put64(b, ((int) (l0 + 32L)) - 58912, l4 - l8);
      Words.put64(b, ((int) (l0 + 24L)) - 58912, l3);
      Words.put64(b, ((int) (l0 + 16L)) - 58912, l2 - l4);
      Words.put64(b, ((int) (l0 + 8L)) - 58912, l1);
      break L1;
     }
     l3 = l3 + l8;
     if (!((l4 = l4 - l8) == 0L)) { continue L4; }
     break L4;
    }
   }
   Words.put64(b, ((int) l0) - 58864, 0L);
   Words.put64(b, ((int) l0) - 58872, 0L);
   Words.put64(b, ((int) l0) - 58880, 0L);
   Words.put64(b, ((int) l0) - 58888, 0L);
   Words.put64(b, ((int) l0) - 58896, 0L);
   Words.put64(b, ((int) l0) - 58904, 0L);
   Words.put64(b, ((int) l0) - 58912, 0L);
   break L1;
  }
  throw State.trap();
 }
 m.g0 = l7 + 128L;
}
}
