// The proved module for WebAssembly as Java; made by bindings/java/core.py.
package chinesenumber;

final class Core6 {
static int f182(State m, int l0, long l1, long l2, long l3, long l4) {
 final byte[] b = m.bytes;
 long l5 = 0;
 long l6 = 0;
 long l7 = 0;
 long l8 = 0;
 long l9 = 0;
 long l10 = 0;
 long l11 = 0;
 long l12 = 0;
 long l13 = 0;
 long l14 = 0;
 long l15 = 0;
 long l16 = 0;
 long l17 = 0;
 long l18 = 0;
 int l19 = 0;
 int l20 = 0;
 int l21 = 0;
 int l22 = 0;
 int l23 = 0;
 m.g0 = l5 = m.g0 - 160L;
 L1: {
  L2: {
   L3: {
    L4: {
     L5: {
      if ((l5 = l5) < 16L) { break L5; }
      L6: {
       L7: {
        L8: {
         if (l0 > 21039) { break L8; }
         if (l0 == 45) { break L6; }
         if (l0 == 126) { break L6; }
         if (l0 != 12316) { break L7; }
         break L6;
        }
        L9: {
         if (l0 > 65292) { break L9; }
         if (l0 == 21040) { break L6; }
         if (l0 != 33267) { break L7; }
         break L6;
        }
        if (l0 == 65293) { break L6; }
        if (l0 == 65374) { break L6; }
       }
       if ((l0 + -8211) + Integer.MIN_VALUE < -2147483646) { break L6; }
       l19 = 0;
       if (l0 != 12289) { break L1; }
       if (l2 == 0L) { break L1; }
       l20 = (l0 = (int) b[((int) l1) - 58912]) & 255;
       l6 = 1L;
       L10: {
        if (l0 > -1) { break L10; }
        l21 = (b[((int) l1) - 58911] & 0xff) & 63;
        L11: {
         if (l0 + Integer.MIN_VALUE > 2147483615) { break L11; }
         l20 = ((l20 << 6) & 1984) | l21;
         l6 = 2L;
         break L10;
        }
        l22 = (b[((int) l1) - 58910] & 0xff) & 63;
        L12: {
         if (l0 + Integer.MIN_VALUE > 2147483631) { break L12; }
         l20 = ((l21 << 6) | ((l20 << 12) & 61440)) | l22;
         l6 = 3L;
         break L10;
        }
        l20 = ((l22 << 6) | ((l21 << 12) | ((l20 << 18) & 1835008))) | ((b[((int) l1) - 58909] & 0xff) & 63);
        l6 = 4L;
       }
       if (l4 == 0L) { break L1; }
       l21 = (l0 = (int) b[((int) l3) - 58912]) & 255;
       L13: {
        if (l0 > -1) { break L13; }
        l22 = (b[((int) l3) - 58911] & 0xff) & 63;
        L14: {
         if (l0 + Integer.MIN_VALUE > 2147483615) { break L14; }
         l21 = ((l21 << 6) & 1984) | l22;
         break L13;
        }
        l23 = (b[((int) l3) - 58910] & 0xff) & 63;
        L15: {
         if (l0 + Integer.MIN_VALUE > 2147483631) { break L15; }
         l21 = ((l22 << 6) | ((l21 << 12) & 61440)) | l23;
         break L13;
        }
        l21 = ((l23 << 6) | ((l22 << 12) | ((l21 << 18) & 1835008))) | ((b[((int) l3) - 58909] & 0xff) & 63);
       }
       if (l2 != l6) { break L1; }
       Core2.f63(m, l5 + 88L, l20);
       if ((l20 + -58) + Integer.MIN_VALUE > 2147483637) { break L1; }
       if (((b[((int) l5) - 58824] & 0xff) & 255) != 1) { break L1; }
       Core2.f63(m, l5 + 80L, l21);
       if ((l21 + -58) + Integer.MIN_VALUE > 2147483637) { break L1; }
       if (((b[((int) l5) - 58832] & 0xff) & 255) != 1) { break L1; }
       Core2.f63(m, l5 + 72L, l20);
       l0 = b[((int) l5) - 58840] & 0xff;
       l20 = b[((int) l5) - 58839] & 0xff;
       Core2.f63(m, l5 + 64L, l21);
       if ((l0 & (b[((int) l5) - 58848] & 0xff)) == 0) { break L1; }
       if (((b[((int) l5) - 58847] & 0xff) & 255) != ((l20 + 1) & 255)) { break L1; }
      }
      Words.put64(b, ((int) l5) - 58760, 0L);
      Words.put64(b, ((int) l5) - 58768, 0L);
      Words.put64(b, ((int) l5) - 58776, 0L);
      Words.put64(b, ((int) l5) - 58784, 0L);
      Words.put64(b, ((int) l5) - 58792, 0L);
      Words.put64(b, ((int) l5) - 58800, 0L);
      Words.put64(b, ((int) l5) - 58808, 0L);
      Words.put64(b, ((int) l5) - 58816, 0L);
      l19 = 1;
      Core3.f80(m, l5 + 96L, l1, l2, 1);
      l6 = Words.get64(b, ((int) l5) - 58776);
      l7 = Words.get64(b, ((int) l5) - 58784);
      l8 = Words.get64(b, ((int) l5) - 58792);
      l9 = Words.get64(b, ((int) l5) - 58800);
      l20 = b[((int) l5) - 58768] & 0xff;
      l0 = b[((int) l5) - 58816] & 0xff;
      Words.put64(b, ((int) l5) - 58760, 0L);
      Words.put64(b, ((int) l5) - 58768, 0L);
      Words.put64(b, ((int) l5) - 58776, 0L);
      Words.put64(b, ((int) l5) - 58784, 0L);
      Words.put64(b, ((int) l5) - 58792, 0L);
      Words.put64(b, ((int) l5) - 58800, 0L);
      Words.put64(b, ((int) l5) - 58808, 0L);
      Words.put64(b, ((int) l5) - 58816, 0L);
      Core3.f80(m, l5 + 96L, l3, l4, 1);
      L16: {
       if ((l0 | ((b[((int) l5) - 58816] & 0xff) & 255)) == 0) { break L16; }
       l19 = 0;
       break L1;
      }
      if (((l20 & 255) == 2) ^ (((b[((int) l5) - 58768] & 0xff) & 255) == 2)) { break L1; }
      L17: {
       if (!(l4 == 0L)) { break L17; }
       l19 = 0;
       break L1;
      }
      L18: {
       L19: {
        if ((l0 = (int) b[((int) l3) - 58912]) <= -1) { break L19; }
        l10 = -1L;
        break L18;
       }
       L20: {
        if (l0 + Integer.MIN_VALUE >= 2147483616) { break L20; }
        l10 = -2L;
        break L18;
       }
       l10 = (l0 + Integer.MIN_VALUE < 2147483632) ? -3L : -4L;
      }
      L21: {
       if (l10 != (0L - l4)) { break L21; }
       l19 = 0;
       break L1;
      }
      L22: {
       if (((int) b[((int) ((l10 = l3 + l4) + -1L)) - 58912]) <= -1) { break L22; }
       l19 = 0;
       break L1;
      }
      l11 = -2L;
      L23: {
       if ((b[((int) (l10 + -2L)) - 58912] & 0xff) + Integer.MIN_VALUE > -2147483457) { break L23; }
       l11 = ((b[((int) (l10 + -3L)) - 58912] & 0xff) + Integer.MIN_VALUE > -2147483457) ? -3L : -4L;
      }
      L24: {
       if ((l0 = (int) b[((int) (l4 = l3 + (l10 = l11 + l4))) - 58912]) <= -1) { break L24; }
       l19 = 0;
       break L1;
      }
      L25: {
       if (l0 + Integer.MIN_VALUE >= 2147483616) { break L25; }
       l19 = 0;
       break L1;
      }
      l19 = l0 & 255;
      l20 = (b[((int) l4) - 58911] & 0xff) & 63;
      l21 = (b[((int) l4) - 58910] & 0xff) & 63;
      L26: {
       L27: {
        if (l0 + Integer.MIN_VALUE > 2147483631) { break L27; }
        l0 = ((l20 << 6) | ((l19 << 12) & 61440)) | l21;
        break L26;
       }
       l0 = ((l21 << 6) | ((l20 << 12) | ((l19 << 18) & 1835008))) | ((b[((int) l4) - 58909] & 0xff) & 63);
      }
      l19 = 0;
      if ((l0 + -2048) + Integer.MIN_VALUE > -2147420161) { break L1; }
      l19 = 0;
      if ((l20 = Words.get32(b, State.far((int) (l4 = ((((l0 = (((l0 >>> 12) | ((l0 << 2) & 16128)) | ((l0 << 16) & 4128768)) | 8421600) & 0xffffffffL) * 953497L) >>> 22L) & 1016L), 66852))) != l0) { break L1; }
      if (((b[((int) (l4 + 66856L)) - 58912] & 0xff) & 255) != 1) { break L1; }
      final int t28 = b[((int) (l4 + 66857L)) - 58912] & 0xff;
      final int t29 = (l20 == l0) ? 1 : 0;
      if (((l20 = t29 != 0 ? t28 : 0) & 255) == 0) { break L1; }
      L30: {
       if (l2 == 0L) { break L30; }
       L31: {
        if ((l0 = (int) b[((int) ((l4 = l1 + l2) + -1L)) - 58912]) >= 0) { break L31; }
        l11 = -2L;
        L32: {
         if ((b[((int) (l4 + -2L)) - 58912] & 0xff) + Integer.MIN_VALUE > -2147483457) { break L32; }
         l11 = ((b[((int) (l4 + -3L)) - 58912] & 0xff) + Integer.MIN_VALUE > -2147483457) ? -3L : -4L;
        }
        l0 = (l19 = (int) b[((int) (l4 = (l1 + l11) + l2)) - 58912]) & 255;
        if (l19 > -1) { break L31; }
        l21 = (b[((int) l4) - 58911] & 0xff) & 63;
        L33: {
         if (l19 + Integer.MIN_VALUE > 2147483615) { break L33; }
         l0 = ((l0 << 6) & 1984) | l21;
         break L31;
        }
        l22 = (b[((int) l4) - 58910] & 0xff) & 63;
        L34: {
         if (l19 + Integer.MIN_VALUE > 2147483631) { break L34; }
         l0 = ((l21 << 6) | ((l0 << 12) & 61440)) | l22;
         break L31;
        }
        l0 = ((l22 << 6) | ((l21 << 12) | ((l0 << 18) & 1835008))) | ((b[((int) l4) - 58909] & 0xff) & 63);
       }
       if ((l0 + -2048) + Integer.MIN_VALUE > -2147420161) { break L30; }
       if ((l0 = (Words.get32(b, State.far((int) (l4 = ((((l0 = (((l0 >>> 12) | ((l0 << 2) & 16128)) | ((l0 << 16) & 4128768)) | 8421600) & 0xffffffffL) * 953497L) >>> 22L) & 1016L), 66852)) != l0) ? 1 : 0) != 0) { break L30; }
       if (((b[((int) (l4 + 66856L)) - 58912] & 0xff) & 255) != 1) { break L30; }
       l19 = 0;
       final int t35 = b[((int) (l4 + 66857L)) - 58912] & 0xff;
       final int t36 = l0;
       if (((t36 != 0 ? 0 : t35) & 255) + Integer.MIN_VALUE >= (l20 & 255) + Integer.MIN_VALUE) { break L1; }
      }
      l11 = 0L;
      Words.put64(b, ((int) l5) - 58760, 0L);
      Words.put64(b, ((int) l5) - 58768, 0L);
      Words.put64(b, ((int) l5) - 58776, 0L);
      Words.put64(b, ((int) l5) - 58784, 0L);
      Words.put64(b, ((int) l5) - 58792, 0L);
      Words.put64(b, ((int) l5) - 58800, 0L);
      Words.put64(b, ((int) l5) - 58808, 0L);
      Words.put64(b, ((int) l5) - 58816, 0L);
      Core3.f80(m, l5 + 96L, l3, l10, 1);
      l19 = 0;
      if ((b[((int) l5) - 58816] & 0xff) != 0) { break L1; }
      l12 = Words.get64(b, ((int) l5) - 58776);
      l13 = Words.get64(b, ((int) l5) - 58784);
      l14 = Words.get64(b, ((int) l5) - 58792);
      l15 = Words.get64(b, ((int) l5) - 58800);
      L37: {
       if ((l0 = ((l7 | l6) == 0L) ? 1 : 0) == 0) { break L37; }
       l16 = 0L;
       break L2;
      }
      final long t38 = 0L - (l8 + ((l9 != 0L) ? 1L : 0L));
      final long t39 = l8;
      final int t40 = l19 = (l8 < 0L) ? 1 : 0;
      final long t41 = l1 = t40 != 0 ? t38 : t39;
      final int t42 = l0;
      final long t43 = l1;
      final long t44 = 0L - l9;
      final long t45 = l9;
      final int t46 = l19;
      final int t47 = t42 | (((t43 | (l8 = t46 != 0 ? t44 : t45)) == 0L) ? 1 : 0);
      final long t48 = (long) Long.numberOfLeadingZeros(l6);
      final long t49 = ((long) Long.numberOfLeadingZeros(l7)) + 64L;
      final int t50 = (l6 != 0L) ? 1 : 0;
      final long t51 = l4 = t50 != 0 ? t48 : t49;
      final long t52 = (long) Long.numberOfLeadingZeros(l1);
      final long t53 = ((long) Long.numberOfLeadingZeros(l8)) + 64L;
      final int t54 = (l1 != 0L) ? 1 : 0;
      final int t55 = ((l3 = t51 - (l2 = t54 != 0 ? t52 : t53)) + Long.MIN_VALUE > -9223372036854775681L) ? 1 : 0;
      final int t56 = ((l9 = 0L - ((l4 + Long.MIN_VALUE < l2 + Long.MIN_VALUE) ? 1L : 0L)) != 0L) ? 1 : 0;
      final int t57 = (l9 == 0L) ? 1 : 0;
      l11 = ((l0 = t47 | (t57 != 0 ? t55 : t56)) != 0) ? 0L : t41;
      l16 = l0 != 0 ? 0L : l8;
      if (l0 != 0) { break L2; }
      if (((l3 ^ 127L) | l9) == 0L) { break L2; }
      Core1.f4(m, l5 + 48L, l8, l1, 127 - ((int) l3));
      l2 = Words.get64(b, ((int) l5) - 58856);
      l4 = Words.get64(b, ((int) l5) - 58864);
      if (((l3 = l3 + 1L) | (l9 = l9 + ((l3 == 0L) ? 1L : 0L))) == 0L) { break L4; }
      Core1.f5(m, l5 + 32L, l8, l1, (int) l3);
      l17 = l7 + -1L;
      l16 = l6 - ((l7 == 0L) ? 1L : 0L);
      l10 = Words.get64(b, ((int) l5) - 58872);
      l1 = Words.get64(b, ((int) l5) - 58880);
      l8 = 0L;
      L58: while (true) {
       l11 = l8;
       l10 = ((l8 = (l10 << 1L) | (l1 >>> 63L)) - ((l8 = ((l16 - l8) - ((l17 + Long.MIN_VALUE < (l1 = (l1 << 1L) | (l2 >>> 63L)) + Long.MIN_VALUE) ? 1L : 0L)) >> 63L) & l6)) - ((l1 + Long.MIN_VALUE < (l18 = l8 & l7) + Long.MIN_VALUE) ? 1L : 0L);
       l8 = l8 & 1L;
       l1 = l1 - l18;
       l2 = 0L | ((l2 << 1L) | (l4 >>> 63L));
       l0 = (l3 == 0L) ? 1 : 0;
       l4 = l11 | (l4 << 1L);
       l3 = l11 = l3 + -1L;
       if (!((l11 | (l9 = l9 - (l0 & 0xffffffffL))) == 0L)) { continue L58; }
       break L3;
      }
     }
     throw State.trap();
    }
    l8 = 0L;
   }
   l11 = (l2 << 1L) | (l4 >>> 63L);
   l16 = l8 | (l4 << 1L);
  }
  L59: {
   L60: {
    if ((l0 = ((l13 | l12) == 0L) ? 1 : 0) == 0) { break L60; }
    l3 = 0L;
    l4 = 0L;
    break L59;
   }
   final long t61 = 0L - (l14 + ((l15 != 0L) ? 1L : 0L));
   final long t62 = l14;
   final int t63 = l19 = (l14 < 0L) ? 1 : 0;
   final long t64 = l1 = t63 != 0 ? t61 : t62;
   final int t65 = l0;
   final long t66 = l1;
   final long t67 = 0L - l15;
   final long t68 = l15;
   final int t69 = l19;
   final int t70 = t65 | (((t66 | (l6 = t69 != 0 ? t67 : t68)) == 0L) ? 1 : 0);
   final long t71 = (long) Long.numberOfLeadingZeros(l12);
   final long t72 = ((long) Long.numberOfLeadingZeros(l13)) + 64L;
   final int t73 = (l12 != 0L) ? 1 : 0;
   final long t74 = l4 = t73 != 0 ? t71 : t72;
   final long t75 = (long) Long.numberOfLeadingZeros(l1);
   final long t76 = ((long) Long.numberOfLeadingZeros(l6)) + 64L;
   final int t77 = (l1 != 0L) ? 1 : 0;
   final int t78 = ((l8 = t74 - (l3 = t77 != 0 ? t75 : t76)) + Long.MIN_VALUE > -9223372036854775681L) ? 1 : 0;
   final int t79 = ((l7 = 0L - ((l4 + Long.MIN_VALUE < l3 + Long.MIN_VALUE) ? 1L : 0L)) != 0L) ? 1 : 0;
   final int t80 = (l7 == 0L) ? 1 : 0;
   l3 = ((l0 = t70 | (t80 != 0 ? t78 : t79)) != 0) ? 0L : t64;
   l4 = l0 != 0 ? 0L : l6;
   if (l0 != 0) { break L59; }
   if (((l8 ^ 127L) | l7) == 0L) { break L59; }
   Core1.f4(m, l5 + 16L, l6, l1, 127 - ((int) l8));
   l2 = Words.get64(b, ((int) l5) - 58888);
   l4 = Words.get64(b, ((int) l5) - 58896);
   L81: {
    L82: {
     if (((l3 = l8 + 1L) | (l7 = l7 + ((l3 == 0L) ? 1L : 0L))) == 0L) { break L82; }
     Core1.f5(m, l5, l6, l1, (int) l3);
     l18 = l13 + -1L;
     l17 = l12 - ((l13 == 0L) ? 1L : 0L);
     l8 = Words.get64(b, ((int) l5) - 58904);
     l1 = Words.get64(b, ((int) l5) - 58912);
     l6 = 0L;
     L83: while (true) {
      l9 = l6;
      l8 = ((l6 = (l8 << 1L) | (l1 >>> 63L)) - ((l6 = ((l17 - l6) - ((l18 + Long.MIN_VALUE < (l1 = (l1 << 1L) | (l2 >>> 63L)) + Long.MIN_VALUE) ? 1L : 0L)) >> 63L) & l12)) - ((l1 + Long.MIN_VALUE < (l10 = l6 & l13) + Long.MIN_VALUE) ? 1L : 0L);
      l6 = l6 & 1L;
      l1 = l1 - l10;
      l2 = 0L | ((l2 << 1L) | (l4 >>> 63L));
      l0 = (l3 == 0L) ? 1 : 0;
      l4 = l9 | (l4 << 1L);
      l3 = l9 = l3 + -1L;
      if (!((l9 | (l7 = l7 - (l0 & 0xffffffffL))) == 0L)) { continue L83; }
      break L81;
     }
    }
    l6 = 0L;
   }
   l3 = (l2 << 1L) | (l4 >>> 63L);
   l4 = l6 | (l4 << 1L);
  }
  final int t84 = (l16 + Long.MIN_VALUE <= l4 + Long.MIN_VALUE) ? 1 : 0;
  final int t85 = (l11 + Long.MIN_VALUE <= l3 + Long.MIN_VALUE) ? 1 : 0;
  final int t86 = (l11 == l3) ? 1 : 0;
  l19 = t86 != 0 ? t84 : t85;
 }
 m.g0 = l5 + 160L;
 return l19;
}

static int f183_1(State m, long l8, long l11, long l14, long l15, long l16, long l17, long l18, int l20, int l21, int l22, int l23, int l24) {
 final byte[] b = m.bytes;
 int exit = 0;
 PART: {
  L5: {
   L6: {
    L7: {
     L8: {
      L9: {
       L10: {
        L11: {
         L12: {
          L13: {
           L14: {
            L15: {
             if ((l15 = Words.get64(b, ((int) l8) - 58888)) + Long.MIN_VALUE < -9223372036854775805L) { break L15; }
             if (((l20 = b[((int) ((l16 = l14 + l15) + -3L)) - 58912] & 0xff) & 240) != 224) { break L14; }
             l23 = (((l20 << 12) | (l21 = b[((int) (l16 + -1L)) - 58912] & 0xff)) + ((l22 = b[((int) (l16 + -2L)) - 58912] & 0xff) << 6)) + -925824;
             l16 = l15 + -3L;
             if (Words.get32(b, ((int) ((l17 = ((((l20 = ((l22 << 8) | (l21 << 16)) | l20) & 0xffffffffL) * 953497L) >>> 22L) & 1016L) + 66852L)) - 58912) == l20) { break L13; }
             break L11;
            }
            if (l15 == 0L) { break L6; }
           }
           l20 = 0;
           if ((l23 = (int) b[((int) (l14 + (l16 = l15 + -1L))) - 58912]) >= 0) { break L12; }
           l16 = -2L;
           L16: {
            if ((b[((int) ((l17 = l14 + l15) + -2L)) - 58912] & 0xff) + Integer.MIN_VALUE > -2147483457) { break L16; }
            l16 = ((b[((int) (l17 + -3L)) - 58912] & 0xff) + Integer.MIN_VALUE > -2147483457) ? -3L : -4L;
           }
           l23 = (l21 = (int) b[((int) (l17 = l14 + (l16 = l16 + l15))) - 58912]) & 255;
           if (l21 > -1) { break L12; }
           l22 = (b[((int) l17) - 58911] & 0xff) & 63;
           L17: {
            if (l21 + Integer.MIN_VALUE > 2147483615) { break L17; }
            l23 = ((l23 << 6) & 1984) | l22;
            break L12;
           }
           l24 = (b[((int) l17) - 58910] & 0xff) & 63;
           L18: {
            L19: {
             if (l21 + Integer.MIN_VALUE > 2147483631) { break L19; }
             l23 = ((l22 << 6) | ((l23 << 12) & 61440)) | l24;
             break L18;
            }
            l23 = ((l24 << 6) | ((l22 << 12) | ((l23 << 18) & 1835008))) | ((b[((int) l17) - 58909] & 0xff) & 63);
           }
           if ((l23 + -2048) + Integer.MIN_VALUE > -2147420161) { break L12; }
           if (Words.get32(b, ((int) ((l17 = ((((l20 = (((l23 >>> 12) | ((l23 << 2) & 16128)) | ((l23 << 16) & 4128768)) | 8421600) & 0xffffffffL) * 953497L) >>> 22L) & 1016L) + 66852L)) - 58912) != l20) { break L10; }
          }
          if ((b[((int) (l17 + 66856L)) - 58912] & 0xff) != 0) { break L11; }
          break L8;
         }
         if ((l23 + -48) + Integer.MIN_VALUE >= -2147483638) { break L11; }
         l22 = 1;
         break L5;
        }
        if (l23 + Integer.MIN_VALUE > -2147483521) { break L10; }
        l22 = 1;
        l20 = 0;
        if (l23 == 95) { break L5; }
        if ((l23 + -44) + Integer.MIN_VALUE < -2147483645) { break L9; }
        if ((l23 + -48) + Integer.MIN_VALUE < -2147483638) { break L5; }
        if (((l23 & 95) + -65) + Integer.MIN_VALUE >= -2147483622) { break L6; }
        break L5;
       }
       l22 = 0;
       l20 = 1;
       L20: {
        L21: {
         if (l23 > 24185) { break L21; }
         L22: {
          if (l23 > 21316) { break L22; }
          L23: {
           if (l23 > 20959) { break L23; }
           if (l23 == 20313) { break L6; }
           if (l23 == 20358) { break L6; }
           break L20;
          }
          if (l23 == 20960) { break L5; }
          if (l23 == 20986) { break L6; }
          break L20;
         }
         L24: {
          switch (l23 + -21317) {
          case 0: case 7: break L8;
          case 1: case 2: case 3: case 4: case 5: case 6: break L20;
          default: break L24;
          }
         }
         if (l23 == 22810) { break L6; }
         if (l23 == 22909) { break L6; }
         break L20;
        }
        L25: {
         if (l23 > 26468) { break L25; }
         L26: {
          switch (l23 + -24186) {
          case 0: break L8;
          case 1: case 2: case 3: break L20;
          case 4: break L5;
          default: break L26;
          }
         }
         L27: {
          switch (l23 + -25968) {
          case 0: case 8: break L5;
          case 1: case 2: case 3: case 4: case 5: case 6: case 7: break L20;
          default: break L27;
          }
         }
         if (l23 == 24319) { break L8; }
         break L20;
        }
        L28: {
         if (l23 > 39191) { break L28; }
         if (l23 == 26469) { break L6; }
         if (l23 != 28857) { break L20; }
         break L9;
        }
        if (l23 == 39192) { break L6; }
        if (l23 == 40670) { break L9; }
       }
       if ((l23 + -65296) + Integer.MIN_VALUE > -2147483639) { break L6; }
       break L8;
      }
      Words.put64(b, ((int) l8) - 58880, 0L);
      Words.put64(b, ((int) l8) - 58888, 0L);
      Words.put64(b, ((int) l8) - 58896, 0L);
      Words.put64(b, ((int) l8) - 58904, 0L);
      L29: {
       L30: {
        L31: {
         L32: {
          L33: {
           L34: {
            if (l16 + Long.MIN_VALUE < -9223372036854775805L) { break L34; }
            if (((l23 = b[((int) ((l17 = l14 + l16) + -3L)) - 58912] & 0xff) & 240) != 224) { break L33; }
            Words.put64(b, ((int) l8) - 58888, l14);
            Words.put64(b, ((int) l8) - 58904, 1L);
            Words.put64(b, ((int) l8) - 58880, l16 + -3L);
            Words.put32(b, ((int) l8) - 58896, (((l23 << 12) | (l20 = b[((int) (l17 + -1L)) - 58912] & 0xff)) + ((l21 = b[((int) (l17 + -2L)) - 58912] & 0xff) << 6)) + -925824);
            final int t35 = (int) l8;
            final int t36 = b[((int) ((l16 = ((((l23 = ((l21 << 8) | (l20 << 16)) | l23) & 0xffffffffL) * 953497L) >>> 22L) & 1016L) + 66857L)) - 58912] & 0xff;
            final int t37 = l23 = (Words.get32(b, State.far((int) l16, 66852)) == l23) ? 1 : 0;
            b[t35 - 58891] = (byte) (t37 != 0 ? t36 : 0);
            final int t38 = (int) l8;
            final int t39 = b[((int) (l16 + 66856L)) - 58912] & 0xff;
            final int t40 = l23;
            b[t38 - 58892] = (byte) (t40 != 0 ? t39 : 2);
            break L29;
           }
           if (l16 == 0L) { break L32; }
          }
          if ((l23 = (int) b[((int) (l14 + (l17 = l16 + -1L))) - 58912]) >= 0) { break L31; }
          l17 = -2L;
          L41: {
           if ((b[((int) ((l18 = l14 + l16) + -2L)) - 58912] & 0xff) + Integer.MIN_VALUE > -2147483457) { break L41; }
           l17 = ((b[((int) (l18 + -3L)) - 58912] & 0xff) + Integer.MIN_VALUE > -2147483457) ? -3L : -4L;
          }
          l23 = (l20 = (int) b[((int) (l16 = l14 + (l17 = l17 + l16))) - 58912]) & 255;
          if (l20 > -1) { break L31; }
          l21 = (b[((int) l16) - 58911] & 0xff) & 63;
          L42: {
           if (l20 + Integer.MIN_VALUE > 2147483615) { break L42; }
           l23 = ((l23 << 6) & 1984) | l21;
           break L31;
          }
          l22 = (b[((int) l16) - 58910] & 0xff) & 63;
          L43: {
           L44: {
            if (l20 + Integer.MIN_VALUE > 2147483631) { break L44; }
            l23 = ((l21 << 6) | ((l23 << 12) & 61440)) | l22;
            break L43;
           }
           l23 = ((l22 << 6) | ((l21 << 12) | ((l23 << 18) & 1835008))) | ((b[((int) l16) - 58909] & 0xff) & 63);
          }
          if ((l23 + -2048) + Integer.MIN_VALUE > -2147420161) { break L31; }
          final int t45 = b[((int) ((l16 = ((((l20 = (((l23 >>> 12) | ((l23 << 2) & 16128)) | ((l23 << 16) & 4128768)) | 8421600) & 0xffffffffL) * 953497L) >>> 22L) & 1016L) + 66857L)) - 58912] & 0xff;
          final int t46 = l21 = (Words.get32(b, State.far((int) l16, 66852)) == l20) ? 1 : 0;
          l20 = t46 != 0 ? t45 : 0;
          final int t47 = b[((int) (l16 + 66856L)) - 58912] & 0xff;
          final int t48 = l21;
          l21 = t48 != 0 ? t47 : 2;
          break L30;
         }
         Words.put64(b, ((int) l11) - 58912, 0L);
         Words.put64(b, ((int) l11) - 58904, 0L);
         Words.put64(b, ((int) l8) - 58898, 0L);
         Words.put64(b, ((int) l8) - 58904, 0L);
         break L29;
        }
        final int t49 = l20 = l23 + -48;
        final int t50 = l21 = (l20 + Integer.MIN_VALUE < -2147483638) ? 1 : 0;
        l20 = t50 != 0 ? t49 : 0;
        l21 = l21 != 0 ? 0 : 2;
       }
       Words.put64(b, ((int) l8) - 58880, l17);
       Words.put64(b, ((int) l8) - 58888, l14);
       b[((int) l8) - 58891] = (byte) l20;
       b[((int) l8) - 58892] = (byte) l21;
       Words.put32(b, ((int) l8) - 58896, l23);
       Words.put64(b, ((int) l8) - 58904, 1L);
      }
      l22 = Core3.f110(m, l8 + 8L);
      break L7;
     }
     l22 = 1;
    }
    l20 = 0;
    break L5;
   }
   l20 = 0;
   l22 = 0;
  }
 }
 m.kept[0] = l15;
 m.kept[1] = l16;
 m.kept[2] = l17;
 m.kept[3] = l18;
 m.kept[4] = l20;
 m.kept[5] = l21;
 m.kept[6] = l22;
 m.kept[7] = l23;
 m.kept[8] = l24;
 return exit;
}

static int f183(State m, long l0, long l1, long l2, int l3, int l4, long l5, long l6, long l7) {
 final byte[] b = m.bytes;
 long l8 = 0;
 long l9 = 0;
 long l10 = 0;
 long l11 = 0;
 long l12 = 0;
 long l13 = 0;
 long l14 = 0;
 long l15 = 0;
 long l16 = 0;
 long l17 = 0;
 long l18 = 0;
 int l19 = 0;
 int l20 = 0;
 int l21 = 0;
 int l22 = 0;
 int l23 = 0;
 int l24 = 0;
 int l25 = 0;
 m.g0 = l8 = m.g0 - 64L;
 L1: {
  if ((l8 = l8) < 16L) { break L1; }
  l19 = 8;
  l9 = 0L;
  L2: {
   if (l3 + Integer.MIN_VALUE > -2147483647) { break L2; }
   if (l4 + Integer.MIN_VALUE > -2147483633) { break L2; }
   L3: {
    if (l1 == l2) { break L3; }
    l19 = 5;
    if (l1 + Long.MIN_VALUE < l2 + Long.MIN_VALUE) { break L2; }
    if (((int) b[((int) (l0 + l2)) - 58912]) < -64) { break L2; }
   }
   l19 = 0;
   if (l6 == 0L) { break L2; }
   l10 = l0 + l2;
   l2 = l1 - l2;
   l11 = l8 + 24L;
   l9 = 0L;
   L4: while (true) {
    Words.put64(b, ((int) l8) - 58856, 0L);
    Words.put64(b, ((int) l8) - 58864, 0L);
    Words.put64(b, ((int) l8) - 58872, 0L);
    Words.put64(b, ((int) l8) - 58880, 0L);
    Words.put64(b, ((int) l8) - 58888, 0L);
    Words.put64(b, ((int) l8) - 58896, 0L);
    Words.put64(b, ((int) l8) - 58904, 0L);
    if (l2 == 0L) { break L2; }
    f184(m, l8 + 8L, l3, l4, l0, l1, l10, l2);
    if ((b[((int) l8) - 58904] & 0xff) != 1) { break L2; }
    l12 = Words.get64(b, ((int) l8) - 58872);
    l13 = Words.get64(b, ((int) l8) - 58880);
    l14 = Words.get64(b, ((int) l8) - 58896);
    l2 = Words.get64(b, ((int) l8) - 58856);
    l10 = Words.get64(b, ((int) l8) - 58864);
    f183_1(m, l8, l11, l14, l15, l16, l17, l18, l20, l21, l22, l23, l24);
    l15 = m.kept[0];
    l16 = m.kept[1];
    l17 = m.kept[2];
    l18 = m.kept[3];
    l20 = (int) m.kept[4];
    l21 = (int) m.kept[5];
    l22 = (int) m.kept[6];
    l23 = (int) m.kept[7];
    l24 = (int) m.kept[8];
    L52: {
     L53: {
      L54: {
       L55: {
        L56: {
         L57: {
          L58: {
           L59: {
            L60: {
             L61: {
              if (l2 + Long.MIN_VALUE < -9223372036854775805L) { break L61; }
              if (((l23 = b[((int) l10) - 58912] & 0xff) & 240) != 224) { break L60; }
              l21 = (((l24 = b[((int) l10) - 58911] & 0xff) << 8) | ((l25 = b[((int) l10) - 58910] & 0xff) << 16)) | l23;
              l23 = (((l23 << 12) | l25) + (l24 << 6)) + -925824;
              l17 = l2 + -3L;
              l16 = l10 + 3L;
              if (l21 != Words.get32(b, ((int) ((l18 = (((l21 & 0xffffffffL) * 953497L) >>> 22L) & 1016L) + 66852L)) - 58912)) { break L58; }
              break L59;
             }
             if (l2 == 0L) { break L53; }
             l23 = b[((int) l10) - 58912] & 0xff;
            }
            l16 = 1L;
            L62: {
             if (((int) (byte) l23) > -1) { break L62; }
             l21 = (b[((int) l10) - 58911] & 0xff) & 63;
             L63: {
              if (l23 + Integer.MIN_VALUE > -2147483425) { break L63; }
              l23 = ((l23 << 6) & 1984) | l21;
              l16 = 2L;
              break L62;
             }
             l24 = (b[((int) l10) - 58910] & 0xff) & 63;
             L64: {
              if (l23 + Integer.MIN_VALUE > -2147483409) { break L64; }
              l23 = ((l21 << 6) | ((l23 << 12) & 61440)) | l24;
              l16 = 3L;
              break L62;
             }
             l23 = ((l24 << 6) | ((l21 << 12) | ((l23 << 18) & 1835008))) | ((b[((int) l10) - 58909] & 0xff) & 63);
             l16 = 4L;
            }
            l17 = l2 - l16;
            l16 = l10 + l16;
            L65: {
             if ((l23 + -2048) + Integer.MIN_VALUE > -2147420161) { break L65; }
             if (Words.get32(b, ((int) ((l18 = ((((l21 = (((l23 >>> 12) | ((l23 << 2) & 16128)) | ((l23 << 16) & 4128768)) | 8421600) & 0xffffffffL) * 953497L) >>> 22L) & 1016L) + 66852L)) - 58912) == l21) { break L59; }
             break L57;
            }
            if ((l23 + -48) + Integer.MIN_VALUE >= -2147483638) { break L58; }
            break L55;
           }
           if ((b[((int) (l18 + 66856L)) - 58912] & 0xff) == 0) { break L55; }
          }
          if (l23 + Integer.MIN_VALUE > -2147483521) { break L57; }
          l24 = 1;
          l21 = 0;
          if (l23 == 95) { break L52; }
          if ((l23 + -44) + Integer.MIN_VALUE < -2147483645) { break L56; }
          if ((l23 + -48) + Integer.MIN_VALUE < -2147483638) { break L52; }
          if (((l23 & 95) + -65) + Integer.MIN_VALUE >= -2147483622) { break L53; }
          break L52;
         }
         l24 = 0;
         l21 = 1;
         L66: {
          L67: {
           if (l23 > 24185) { break L67; }
           L68: {
            L69: {
             if (l23 > 21316) { break L69; }
             L70: {
              if (l23 > 20959) { break L70; }
              if (l23 == 20313) { break L52; }
              if (l23 != 20358) { break L66; }
              break L52;
             }
             if (l23 == 20960) { break L52; }
             if (l23 == 20986) { break L68; }
             break L66;
            }
            L71: {
             switch (l23 + -21317) {
             case 0: case 7: break L55;
             case 1: case 2: case 3: case 4: case 5: case 6: break L66;
             default: break L71;
             }
            }
            if (l23 == 22810) { break L52; }
            if (l23 != 22909) { break L66; }
           }
           l21 = Core3.f111(m, l23, l16, l17);
           break L52;
          }
          L72: {
           if (l23 > 26468) { break L72; }
           L73: {
            switch (l23 + -24186) {
            case 0: break L55;
            case 1: case 2: case 3: break L66;
            case 4: break L52;
            default: break L73;
            }
           }
           L74: {
            switch (l23 + -25968) {
            case 0: case 8: break L53;
            case 1: case 2: case 3: case 4: case 5: case 6: case 7: break L66;
            default: break L74;
            }
           }
           if (l23 == 24319) { break L55; }
           break L66;
          }
          L75: {
           if (l23 > 39191) { break L75; }
           if (l23 == 26469) { break L52; }
           if (l23 != 28857) { break L66; }
           break L56;
          }
          if (l23 == 39192) { break L52; }
          if (l23 == 40670) { break L56; }
         }
         if ((l23 + -65296) + Integer.MIN_VALUE > -2147483639) { break L53; }
         break L55;
        }
        Words.put64(b, ((int) l8) - 58880, 0L);
        Words.put64(b, ((int) l8) - 58888, 0L);
        Words.put64(b, ((int) l8) - 58896, 0L);
        Words.put64(b, ((int) l8) - 58904, 0L);
        L76: {
         L77: {
          L78: {
           L79: {
            if (l17 + Long.MIN_VALUE < -9223372036854775805L) { break L79; }
            if (((l23 = b[((int) l16) - 58912] & 0xff) & 240) != 224) { break L78; }
            l21 = b[((int) l16) - 58910] & 0xff;
            l24 = b[((int) l16) - 58911] & 0xff;
            Words.put64(b, ((int) l8) - 58880, l17 + -3L);
            Words.put64(b, ((int) l8) - 58888, l16 + 3L);
            Words.put64(b, ((int) l8) - 58904, 1L);
            Words.put32(b, ((int) l8) - 58896, ((l21 | (l23 << 12)) + (l24 << 6)) + -925824);
            final int t80 = (int) l8;
            final int t81 = b[((int) ((l16 = ((((l23 = ((l24 << 8) | (l21 << 16)) | l23) & 0xffffffffL) * 953497L) >>> 22L) & 1016L) + 66857L)) - 58912] & 0xff;
            final int t82 = l23 = (Words.get32(b, State.far((int) l16, 66852)) == l23) ? 1 : 0;
            b[t80 - 58891] = (byte) (t82 != 0 ? t81 : 0);
            final int t83 = (int) l8;
            final int t84 = b[((int) (l16 + 66856L)) - 58912] & 0xff;
            final int t85 = l23;
            b[t83 - 58892] = (byte) (t85 != 0 ? t84 : 2);
            break L76;
           }
           if (l17 == 0L) { break L77; }
           l23 = b[((int) l16) - 58912] & 0xff;
          }
          l18 = 1L;
          L86: {
           if (((int) (byte) l23) > -1) { break L86; }
           l21 = (b[((int) l16) - 58911] & 0xff) & 63;
           L87: {
            if (l23 + Integer.MIN_VALUE > -2147483425) { break L87; }
            l23 = ((l23 << 6) & 1984) | l21;
            l18 = 2L;
            break L86;
           }
           l24 = (b[((int) l16) - 58910] & 0xff) & 63;
           L88: {
            if (l23 + Integer.MIN_VALUE > -2147483409) { break L88; }
            l23 = ((l21 << 6) | ((l23 << 12) & 61440)) | l24;
            l18 = 3L;
            break L86;
           }
           l23 = ((l24 << 6) | ((l21 << 12) | ((l23 << 18) & 1835008))) | ((b[((int) l16) - 58909] & 0xff) & 63);
           l18 = 4L;
          }
          l17 = l17 - l18;
          l16 = l16 + l18;
          L89: {
           L90: {
            if ((l23 + -2048) + Integer.MIN_VALUE > -2147420161) { break L90; }
            final int t91 = b[((int) ((l18 = ((((l21 = (((l23 >>> 12) | ((l23 << 2) & 16128)) | ((l23 << 16) & 4128768)) | 8421600) & 0xffffffffL) * 953497L) >>> 22L) & 1016L) + 66857L)) - 58912] & 0xff;
            final int t92 = l24 = (Words.get32(b, State.far((int) l18, 66852)) == l21) ? 1 : 0;
            l21 = t92 != 0 ? t91 : 0;
            final int t93 = b[((int) (l18 + 66856L)) - 58912] & 0xff;
            final int t94 = l24;
            l24 = t94 != 0 ? t93 : 2;
            break L89;
           }
           final int t95 = l21 = l23 + -48;
           final int t96 = l24 = (l21 + Integer.MIN_VALUE < -2147483638) ? 1 : 0;
           l21 = t96 != 0 ? t95 : 0;
           l24 = l24 != 0 ? 0 : 2;
          }
          Words.put64(b, ((int) l8) - 58880, l17);
          Words.put64(b, ((int) l8) - 58888, l16);
          b[((int) l8) - 58891] = (byte) l21;
          b[((int) l8) - 58892] = (byte) l24;
          Words.put32(b, ((int) l8) - 58896, l23);
          Words.put64(b, ((int) l8) - 58904, 1L);
          break L76;
         }
         Words.put64(b, ((int) l11) - 58912, 0L);
         Words.put64(b, ((int) l11) - 58904, 0L);
         Words.put64(b, ((int) l8) - 58898, 0L);
         Words.put64(b, ((int) l8) - 58904, 0L);
        }
        l24 = Core3.f112(m, l8 + 8L);
        break L54;
       }
       l24 = 1;
      }
      l21 = 0;
      break L52;
     }
     l21 = 0;
     l24 = 0;
    }
    l16 = l12 + l15;
    Words.put32(b, ((int) l8) - 58904, 0);
    l23 = l22 | l24;
    L97: {
     L98: {
      L99: {
       L100: {
        L101: {
         L102: {
          L103: {
           L104: {
            if ((l17 = l12 + -1L) + Long.MIN_VALUE > -9223372036854775806L) { break L104; }
            L105: {
             switch ((int) l17) {
             case 1: break L104;
             case 2: break L105;
             default: break L101;
             }
            }
            if ((l24 = (Words.get32(b, State.far((int) (l17 = ((((l22 = (((b[((int) l13) - 58911] & 0xff) << 8) | (l25 = b[((int) l13) - 58912] & 0xff)) | ((b[((int) l13) - 58910] & 0xff) << 16)) & 0xffffffffL) * 953497L) >>> 22L) & 1016L), 66852)) != l22) ? 1 : 0) != 0) { break L103; }
            l22 = 1;
            final int t106 = b[((int) (l17 + 66856L)) - 58912] & 0xff;
            final int t107 = l24;
            if (((l24 = t107 != 0 ? 0 : t106) & 255) == 2) { break L103; }
            break L100;
           }
           if (l12 + Long.MIN_VALUE > -9223372036854775804L) { break L99; }
           if (l12 == 0L) { break L102; }
           l25 = b[((int) l13) - 58912] & 0xff;
          }
          if (((int) (byte) l25) > -1) { break L99; }
         }
         Core3.f113(m, l8 + 8L, l13, l12);
         if ((b[((int) l8) - 58904] & 0xff) != 1) { break L99; }
         l22 = b[((int) l8) - 58901] & 0xff;
         l24 = b[((int) l8) - 58903] & 0xff;
         break L100;
        }
        l24 = ((l22 = ((((b[((int) l13) - 58912] & 0xff) + -58) & 255) + Integer.MIN_VALUE < -2147483402) ? 1 : 0) != 0) ? 2 : 0;
       }
       l23 = (l23 != 0 ? 0 : 2) | (((l24 = l24 & 255) == 0) ? 1 : 0);
       l22 = ((l22 & 1) != 0) ? 8 : 0;
       if ((l21 | (l20 & ((l24 == 1) ? 1 : 0))) != 0) { break L98; }
       break L97;
      }
      l24 = Core3.f114(m, l13, l12);
      L108: {
       L109: {
        L110: {
         if (l20 == 0) { break L110; }
         if ((l21 | Core3.f115(m, l13, l12)) != 0) { break L109; }
         break L108;
        }
        if (l21 == 0) { break L108; }
       }
       l22 = 0;
       l23 = (l23 != 0 ? 0 : 2) | l24;
       break L98;
      }
      l22 = 0;
      l23 = (l23 != 0 ? 0 : 2) | l24;
      if (Core3.f116(m, l13, l12) == 0) { break L97; }
     }
     l23 = l23 | 4;
    }
    Words.put64(b, ((int) l8) - 58864, l2);
    Words.put64(b, ((int) l8) - 58872, l10);
    Words.put64(b, ((int) l8) - 58880, l12);
    Words.put64(b, ((int) l8) - 58888, l13);
    Words.put64(b, ((int) l8) - 58896, l15);
    Words.put64(b, ((int) l8) - 58904, l14);
    Core4.f126(m, l8, l8 + 8L);
    l20 = b[((int) l8) - 58911] & 0xff;
    l21 = b[((int) l8) - 58912] & 0xff;
    Words.put32(b, ((int) (l5 + 20L)) - 58912, 0);
    Words.put64(b, ((int) (l5 + 8L)) - 58912, l16);
    Words.put64(b, ((int) l5) - 58912, l15);
    final int t111 = (int) (l5 + 16L);
    final int t112 = l22 | l23;
    final int t113 = ((l20 + 1) & 255) << 4;
    final int t114 = l21 & 1;
    Words.put32(b, t111 - 58912, t112 | (t114 != 0 ? t113 : 0));
    l5 = l5 + 24L;
    if (l6 != (l9 = l9 + 1L)) { continue L4; }
    break L4;
   }
   l9 = l6;
   l19 = 0;
  }
  Words.put64(b, ((int) l7) - 58912, l9);
  m.g0 = l8 + 64L;
  final int t115 = l19;
  return t115;
 }
 throw State.trap();
}

static void f184(State m, long l0, int l1, int l2, long l3, long l4, long l5, long l6) {
 final byte[] b = m.bytes;
 long l7 = 0;
 long l8 = 0;
 long l9 = 0;
 long l10 = 0;
 int l11 = 0;
 int l12 = 0;
 int l13 = 0;
 int l14 = 0;
 int l15 = 0;
 m.g0 = l7 = m.g0 - 16L;
 L1: {
  L2: {
   L3: {
    if ((l8 = l7) < 16L) { break L3; }
    L4: while (true) {
     l7 = l5;
     l10 = l4 - (l9 = l6);
     L5: {
      L6: {
       L7: {
        L8: {
         L9: {
          if (l9 + Long.MIN_VALUE < -9223372036854775805L) { break L9; }
          if (((l11 = b[((int) l7) - 58912] & 0xff) & 240) != 224) { break L8; }
          final int t10 = b[((int) ((l6 = ((((l14 = (((l12 = b[((int) l7) - 58911] & 0xff) << 8) | ((l13 = b[((int) l7) - 58910] & 0xff) << 16)) | l11) & 0xffffffffL) * 953497L) >>> 22L) & 1016L) + 66857L)) - 58912] & 0xff;
          final int t11 = l14 = (Words.get32(b, State.far((int) l6, 66852)) == l14) ? 1 : 0;
          l15 = t11 != 0 ? t10 : 0;
          final int t12 = b[((int) (l6 + 66856L)) - 58912] & 0xff;
          final int t13 = l14;
          l14 = t13 != 0 ? t12 : 2;
          l12 = (l11 = ((l12 << 6) + l13) + (l11 << 12)) + -925824;
          l6 = l9 + -3L;
          l5 = l7 + 3L;
          L14: {
           L15: {
            if (l11 == 947141) { break L15; }
            if (l11 == 950143) { break L15; }
            if ((l11 + -991120) + Integer.MIN_VALUE < -2147483638) { break L15; }
            L16: {
             L17: {
              if (l11 > 946314) { break L17; }
              L18: {
               if (l11 > 945802) { break L18; }
               L19: {
                if (l11 > 934063) { break L19; }
                L20: {
                 switch (l11 + -925856) {
                 case 0: case 5: break L15;
                 case 1: case 2: case 3: case 4: break L16;
                 default: break L20;
                 }
                }
                if (l11 != 925989) { break L16; }
                break L15;
               }
               if (l11 == 934064) { break L15; }
               if (l11 != 934546) { break L16; }
               break L15;
              }
              L21: {
               if (l11 > 945866) { break L21; }
               L22: {
                switch (l11 + -945828) {
                case 0: case 6: break L15;
                case 1: case 2: case 3: case 4: case 5: break L16;
                default: break L22;
                }
               }
               if (l11 != 945803) { break L16; }
               break L15;
              }
              if (l11 == 945867) { break L15; }
              if (l11 != 946015) { break L16; }
              break L15;
             }
             L23: {
              if (l11 > 954680) { break L23; }
              L24: {
               if (l11 > 946821) { break L24; }
               if (l11 == 946315) { break L15; }
               if (l11 != 946665) { break L16; }
               break L15;
              }
              if (l11 == 946822) { break L15; }
              if (l11 == 947139) { break L15; }
              if (l11 != 947272) { break L16; }
              break L15;
             }
             L25: {
              if (l11 > 966493) { break L25; }
              if (l11 == 954681) { break L15; }
              if (l11 == 961824) { break L15; }
              if (l11 != 961951) { break L16; }
              break L15;
             }
             if (l11 == 966494) { break L15; }
             if (l11 == 991109) { break L15; }
             if (l11 == 991333) { break L15; }
            }
            if (l12 + Integer.MIN_VALUE < -2147483604) { break L14; }
            if (l12 + Integer.MIN_VALUE < -2147483601) { break L15; }
            if ((l11 + -991116) + Integer.MIN_VALUE > -2147483646) { break L14; }
           }
           L26: {
            L27: {
             if ((l14 & 255) != 2) { break L27; }
             if (l11 == 947141) { break L2; }
             if (l11 == 950143) { break L2; }
             if ((l11 + -991120) + Integer.MIN_VALUE >= -2147483638) { break L26; }
             break L2;
            }
            if (Core4.f146(m, l1, l2, l12, l14, l15, l5, l6) == 0) { break L26; }
            if (Core5.f147(m, l1, l2, l3, l10, l12, l5, l6) == 0) { break L2; }
           }
           if (Core5.f148(m, l1, l2, l3, l10, l12, l5, l6) == 0) { continue L4; }
           break L2;
          }
          L28: {
           L29: {
            switch ((int) ((l14 & 0xffffffffL) & 255L)) {
            case 1: break L29;
            case 2: continue L4;
            default: break L28;
            }
           }
           if ((l2 & 255) + Integer.MIN_VALUE < (l15 & 255) + Integer.MIN_VALUE) { continue L4; }
          }
          L30: {
           if ((l1 & 1) != 0) { break L30; }
           L31: {
            L32: {
             if (l11 > 955413) { break L32; }
             L33: {
              if (l11 > 948600) { break L33; }
              if (l11 == 946015) { continue L4; }
              if (l11 == 946061) { continue L4; }
              if (l11 == 946160) { continue L4; }
              break L31;
             }
             L34: {
              if (l11 > 951243) { break L34; }
              if (l11 == 948601) { continue L4; }
              if (l11 == 951166) { continue L4; }
              break L31;
             }
             if (l11 == 951244) { continue L4; }
             if (l11 == 952402) { continue L4; }
             break L31;
            }
            L35: {
             if (l11 > 961967) { break L35; }
             L36: {
              switch (l11 + -961838) {
              case 0: case 5: continue L4;
              case 1: case 2: case 3: case 4: break L31;
              default: break L36;
              }
             }
             if (l11 == 955414) { continue L4; }
             if (l11 == 958726) { continue L4; }
             break L31;
            }
            if (l11 == 961968) { continue L4; }
            if (l11 == 964294) { continue L4; }
            if (l11 == 964344) { continue L4; }
           }
           if ((l11 + -947265) + Integer.MIN_VALUE < -2147483644) { continue L4; }
          }
          if ((l14 & 255) != 1) { break L2; }
          if ((l11 = l15 & 255) == 0) { break L7; }
          if (l11 != 6) { break L2; }
          if (Core3.f108(m, l5, l6) != 0) { continue L4; }
          break L2;
         }
         if (l9 == 0L) { break L6; }
         l11 = b[((int) l7) - 58912] & 0xff;
        }
        l12 = l11 & 255;
        l5 = 1L;
        L37: {
         if (((int) (byte) l11) > -1) { break L37; }
         l14 = (b[((int) l7) - 58911] & 0xff) & 63;
         L38: {
          if ((l11 & 255) + Integer.MIN_VALUE > -2147483425) { break L38; }
          l12 = ((l12 << 6) & 1984) | l14;
          l5 = 2L;
          break L37;
         }
         l13 = (b[((int) l7) - 58910] & 0xff) & 63;
         L39: {
          if ((l11 & 255) + Integer.MIN_VALUE > -2147483409) { break L39; }
          l12 = ((l14 << 6) | ((l12 << 12) & 61440)) | l13;
          l5 = 3L;
          break L37;
         }
         l12 = ((l13 << 6) | ((l14 << 12) | ((l12 << 18) & 1835008))) | ((b[((int) l7) - 58909] & 0xff) & 63);
         l5 = 4L;
        }
        L40: {
         L41: {
          if ((l12 + -2048) + Integer.MIN_VALUE > -2147420161) { break L41; }
          final int t42 = b[((int) ((l6 = ((((l11 = (((l12 >>> 12) | ((l12 << 2) & 16128)) | ((l12 << 16) & 4128768)) | 8421600) & 0xffffffffL) * 953497L) >>> 22L) & 1016L) + 66857L)) - 58912] & 0xff;
          final int t43 = l11 = (Words.get32(b, State.far((int) l6, 66852)) == l11) ? 1 : 0;
          l14 = t43 != 0 ? t42 : 0;
          final int t44 = b[((int) (l6 + 66856L)) - 58912] & 0xff;
          final int t45 = l11;
          l11 = t45 != 0 ? t44 : 2;
          break L40;
         }
         final int t46 = l11 = l12 + -48;
         final int t47 = l11 = (l11 + Integer.MIN_VALUE < -2147483638) ? 1 : 0;
         l14 = t47 != 0 ? t46 : 0;
         l11 = l11 != 0 ? 0 : 2;
        }
        l6 = l9 - l5;
        l5 = l7 + l5;
        L48: {
         L49: {
          if (l12 == 21317) { break L49; }
          if (l12 == 24319) { break L49; }
          if ((l12 + -65296) + Integer.MIN_VALUE < -2147483638) { break L49; }
          L50: {
           L51: {
            if (l12 > 20490) { break L51; }
            L52: {
             if (l12 > 19978) { break L52; }
             L53: {
              if (l12 > 8239) { break L53; }
              L54: {
               switch (l12 + -32) {
               case 0: case 5: break L49;
               case 1: case 2: case 3: case 4: break L50;
               default: break L54;
               }
              }
              if (l12 != 165) { break L50; }
              break L49;
             }
             if (l12 == 8240) { break L49; }
             if (l12 != 8722) { break L50; }
             break L49;
            }
            L55: {
             if (l12 > 20042) { break L55; }
             L56: {
              switch (l12 + -20004) {
              case 0: case 6: break L49;
              case 1: case 2: case 3: case 4: case 5: break L50;
              default: break L56;
              }
             }
             if (l12 != 19979) { break L50; }
             break L49;
            }
            if (l12 == 20043) { break L49; }
            if (l12 != 20191) { break L50; }
            break L49;
           }
           L57: {
            if (l12 > 28856) { break L57; }
            L58: {
             if (l12 > 20997) { break L58; }
             if (l12 == 20491) { break L49; }
             if (l12 != 20841) { break L50; }
             break L49;
            }
            if (l12 == 20998) { break L49; }
            if (l12 == 21315) { break L49; }
            if (l12 != 21448) { break L50; }
            break L49;
           }
           L59: {
            if (l12 > 40669) { break L59; }
            if (l12 == 28857) { break L49; }
            if (l12 == 36000) { break L49; }
            if (l12 != 36127) { break L50; }
            break L49;
           }
           if (l12 == 40670) { break L49; }
           if (l12 == 65285) { break L49; }
           if (l12 == 65509) { break L49; }
          }
          if (l12 + Integer.MIN_VALUE < -2147483604) { break L48; }
          if (l12 + Integer.MIN_VALUE < -2147483601) { break L49; }
          if ((l12 + -65292) + Integer.MIN_VALUE > -2147483646) { break L48; }
         }
         L60: {
          L61: {
           if ((l11 & 255) != 2) { break L61; }
           if (l12 == 21317) { break L2; }
           if (l12 == 24319) { break L2; }
           if ((l12 + -65296) + Integer.MIN_VALUE >= -2147483638) { break L60; }
           break L2;
          }
          if (Core4.f146(m, l1, l2, l12, l11, l14, l5, l6) == 0) { break L60; }
          if (Core5.f147(m, l1, l2, l3, l10, l12, l5, l6) == 0) { break L2; }
         }
         if (Core5.f148(m, l1, l2, l3, l10, l12, l5, l6) == 0) { continue L4; }
         break L2;
        }
        L62: {
         L63: {
          switch ((int) ((l11 & 0xffffffffL) & 255L)) {
          case 1: break L63;
          case 2: continue L4;
          default: break L62;
          }
         }
         if ((l2 & 255) + Integer.MIN_VALUE < (l14 & 255) + Integer.MIN_VALUE) { continue L4; }
        }
        L64: {
         if ((l1 & 1) != 0) { break L64; }
         L65: {
          L66: {
           if (l12 > 29589) { break L66; }
           L67: {
            if (l12 > 22776) { break L67; }
            if (l12 == 20191) { continue L4; }
            if (l12 == 20237) { continue L4; }
            if (l12 == 20336) { continue L4; }
            break L65;
           }
           L68: {
            if (l12 > 25419) { break L68; }
            if (l12 == 22777) { continue L4; }
            if (l12 == 25342) { continue L4; }
            break L65;
           }
           if (l12 == 25420) { continue L4; }
           if (l12 == 26578) { continue L4; }
           break L65;
          }
          L69: {
           if (l12 > 36143) { break L69; }
           L70: {
            switch (l12 + -36014) {
            case 0: case 5: continue L4;
            case 1: case 2: case 3: case 4: break L65;
            default: break L70;
            }
           }
           if (l12 == 29590) { continue L4; }
           if (l12 == 32902) { continue L4; }
           break L65;
          }
          if (l12 == 36144) { continue L4; }
          if (l12 == 38470) { continue L4; }
          if (l12 == 38520) { continue L4; }
         }
         if ((l12 + -21441) + Integer.MIN_VALUE < -2147483644) { continue L4; }
        }
        if ((l11 & 255) != 1) { break L2; }
        if ((l11 = l14 & 255) == 0) { break L5; }
        if (l11 != 6) { break L2; }
        if (Core3.f108(m, l5, l6) != 0) { continue L4; }
        break L2;
       }
       if (Core3.f109(m, l1, l2, l5, l6) == 0) { continue L4; }
       break L2;
      }
      Words.put64(b, ((int) l0) - 58864, 0L);
      Words.put64(b, ((int) l0) - 58872, 0L);
      Words.put64(b, ((int) l0) - 58880, 0L);
      Words.put64(b, ((int) l0) - 58888, 0L);
      Words.put64(b, ((int) l0) - 58896, 0L);
      Words.put64(b, ((int) l0) - 58904, 0L);
      Words.put64(b, ((int) l0) - 58912, 0L);
      break L1;
     }
     if (Core3.f109(m, l1, l2, l5, l6) == 0) { continue L4; }
     break L2;
    }
   }
   throw State.trap();
  }
  Core5.f149(m, l8, l1, l2, l3, l4, l12, l5, l6);
  l6 = Words.get64(b, ((int) l8) - 58912);
  Words.put64(b, ((int) (l0 + 48L)) - 58912, l5 = Words.get64(b, ((int) l8) - 58904));
  Words.put64(b, ((int) (l0 + 40L)) - 58912, l6);
  Words.put64(b, ((int) (l0 + 24L)) - 58912, l7);
  Words.put64(b, ((int) (l0 + 16L)) - 58912, l10);
  Words.put64(b, ((int) (l0 + 8L)) - 58912, l3);
  Words.put64(b, ((int) l0) - 58912, 1L);
  Words.put64(b, ((int) (l0 + 32L)) - 58912, l9 - l5);
 }
 m.g0 = l8 + 16L;
}

static void f185(State m, long l0, long l1, long l2, long l3, long l4) {
 final byte[] b = m.bytes;
 long l5 = 0;
 long l6 = 0;
 long l7 = 0;
 long l8 = 0;
 long l9 = 0;
 long l10 = 0;
 long l11 = 0;
 long l12 = 0;
 long l13 = 0;
 int l14 = 0;
 int l15 = 0;
 int l16 = 0;
 int l17 = 0;
 int l18 = 0;
 int l19 = 0;
 int l20 = 0;
 int l21 = 0;
 m.g0 = l5 = m.g0 - 32L;
 L1: {
  if ((l5 = l5) < 16L) { break L1; }
  Words.put64(b, ((int) l5) - 58896, 0L);
  Words.put64(b, ((int) l5) - 58904, l4);
  Words.put64(b, ((int) l5) - 58912, l3);
  l3 = 0L;
  L2: {
   L3: {
    if (l2 == 0L) { break L3; }
    l6 = l2;
    l3 = l1;
    L4: while (true) {
     l7 = l6;
     l15 = (l14 = (int) b[((int) l3) - 58912]) & 255;
     l8 = 1L;
     L5: {
      if (l14 > -1) { break L5; }
      l16 = (b[((int) l3) - 58911] & 0xff) & 63;
      L6: {
       if (l14 + Integer.MIN_VALUE > 2147483615) { break L6; }
       l15 = ((l15 << 6) & 1984) | l16;
       l8 = 2L;
       break L5;
      }
      l17 = (b[((int) l3) - 58910] & 0xff) & 63;
      L7: {
       if (l14 + Integer.MIN_VALUE > 2147483631) { break L7; }
       l15 = ((l16 << 6) | ((l15 << 12) & 61440)) | l17;
       l8 = 3L;
       break L5;
      }
      l15 = ((l17 << 6) | ((l16 << 12) | ((l15 << 18) & 1835008))) | ((b[((int) l3) - 58909] & 0xff) & 63);
      l8 = 4L;
     }
     l6 = l7 - l8;
     l3 = l3 + l8;
     l8 = l2 - l7;
     l14 = 1;
     L8: {
      L9: {
       L10: {
        L11: {
         L12: {
          L13: {
           L14: {
            L15: {
             L16: {
              L17: {
               L18: {
                L19: {
                 L20: {
                  switch (l15 + -45) {
                  case 0: break L17;
                  case 1: case 2: case 3: case 4: case 5: case 6: case 7: case 8: case 9: case 10: case 11: case 12: break L18;
                  case 13: break L19;
                  default: break L20;
                  }
                 }
                 L21: {
                  switch (l15 + -65293) {
                  case 0: break L17;
                  case 1: case 2: case 3: case 4: case 5: case 6: case 7: case 8: case 9: case 10: case 11: case 12: break L18;
                  case 13: break L19;
                  default: break L21;
                  }
                 }
                 if (l15 != 8722) { break L18; }
                 break L17;
                }
                L22: {
                 if (Core5.f172(m, l1, l8) != 0) { break L22; }
                 L23: {
                  if (l15 == 58) { break L23; }
                  l15 = 65307;
                  break L16;
                 }
                 l15 = 59;
                 break L14;
                }
                if (l15 == 45) { break L17; }
                if (l15 == 8722) { break L17; }
                if (l15 == 65293) { break L17; }
               }
               l14 = 0;
              }
              if (l6 == 0L) { break L13; }
              if (l14 == 0) { break L13; }
              l14 = (l16 = (int) b[((int) l3) - 58912]) & 255;
              L24: {
               if (l16 > -1) { break L24; }
               l17 = (b[((int) l3) - 58911] & 0xff) & 63;
               L25: {
                if (l16 + Integer.MIN_VALUE > 2147483615) { break L25; }
                l14 = ((l14 << 6) & 1984) | l17;
                break L24;
               }
               l18 = (b[((int) l3) - 58910] & 0xff) & 63;
               L26: {
                if (l16 + Integer.MIN_VALUE > 2147483631) { break L26; }
                l14 = ((l17 << 6) | ((l14 << 12) & 61440)) | l18;
                break L24;
               }
               l14 = ((l18 << 6) | ((l17 << 12) | ((l14 << 18) & 1835008))) | ((b[((int) l3) - 58909] & 0xff) & 63);
              }
              L27: {
               if ((l14 + -48) + Integer.MIN_VALUE < -2147483638) { break L27; }
               if ((l14 + -65296) + Integer.MIN_VALUE > -2147483639) { break L13; }
              }
              l9 = l1 + l8;
              l10 = 0L;
              L28: {
               L29: {
                if ((l14 = (l2 == l7) ? 1 : 0) != 0) { break L29; }
                L30: {
                 L31: {
                  L32: {
                   L33: {
                    L34: {
                     if ((l16 = (int) b[((int) (l1 + (l7 = l8 + -1L))) - 58912]) > -1) { break L34; }
                     l11 = -2L;
                     L35: {
                      L36: {
                       if ((l17 = b[((int) (l9 + -2L)) - 58912] & 0xff) + Integer.MIN_VALUE < -2147483456) { break L36; }
                       l12 = l8 + -2L;
                       break L35;
                      }
                      l12 = (l11 = ((b[((int) (l9 + -3L)) - 58912] & 0xff) + Integer.MIN_VALUE > -2147483457) ? -3L : -4L) + l8;
                     }
                     L37: {
                      if ((l18 = (int) b[((int) (l11 = (l1 + l11) + l8)) - 58912]) > -1) { break L37; }
                      if (l18 + Integer.MIN_VALUE < 2147483616) { break L37; }
                      l19 = l18 & 255;
                      l20 = (b[((int) l11) - 58911] & 0xff) & 63;
                      l21 = (b[((int) l11) - 58910] & 0xff) & 63;
                      L38: {
                       L39: {
                        if (l18 + Integer.MIN_VALUE > 2147483631) { break L39; }
                        l18 = ((l20 << 6) | ((l19 << 12) & 61440)) | l21;
                        break L38;
                       }
                       l18 = ((l21 << 6) | ((l20 << 12) | ((l19 << 18) & 1835008))) | ((b[((int) l11) - 58909] & 0xff) & 63);
                      }
                      if (l18 == 21040) { break L31; }
                      if (l18 == 33267) { break L31; }
                      if (f186(m, l1, l8) != 0) { break L28; }
                      break L33;
                     }
                     if (f186(m, l1, l8) == 0) { break L33; }
                     break L28;
                    }
                    l12 = l7;
                    l17 = l16;
                    if (f186(m, l1, l8) == 0) { break L32; }
                    break L28;
                   }
                   l11 = -2L;
                   L40: {
                    if (l17 + Integer.MIN_VALUE > -2147483457) { break L40; }
                    l11 = ((b[((int) (l9 + -3L)) - 58912] & 0xff) + Integer.MIN_VALUE > -2147483457) ? -3L : -4L;
                   }
                   l17 = (l18 = (int) b[((int) (l11 = (l1 + l11) + l8)) - 58912]) & 255;
                   if (l18 > -1) { break L32; }
                   l19 = (b[((int) l11) - 58911] & 0xff) & 63;
                   L41: {
                    if (l18 + Integer.MIN_VALUE > 2147483615) { break L41; }
                    l17 = ((l17 << 6) & 1984) | l19;
                    break L32;
                   }
                   l20 = (b[((int) l11) - 58910] & 0xff) & 63;
                   L42: {
                    if (l18 + Integer.MIN_VALUE > 2147483631) { break L42; }
                    l17 = ((l19 << 6) | ((l17 << 12) & 61440)) | l20;
                    break L32;
                   }
                   l17 = ((l20 << 6) | ((l19 << 12) | ((l17 << 18) & 1835008))) | ((b[((int) l11) - 58909] & 0xff) & 63);
                  }
                  L43: {
                   if ((l17 + -19968) + Integer.MIN_VALUE > -2147462657) { break L43; }
                   if (f186(m, l1, l12) != 0) { break L28; }
                   if (l12 == 0L) { break L43; }
                   if (((int) b[((int) ((l11 = l1 + l12) + -1L)) - 58912]) > -1) { break L43; }
                   l13 = -2L;
                   L44: {
                    if ((l19 = b[((int) (l11 + -2L)) - 58912] & 0xff) + Integer.MIN_VALUE > -2147483457) { break L44; }
                    l13 = ((b[((int) (l11 + -3L)) - 58912] & 0xff) + Integer.MIN_VALUE > -2147483457) ? -3L : -4L;
                   }
                   l17 = (l18 = (int) b[((int) (l13 = (l1 + l13) + l12)) - 58912]) & 255;
                   L45: {
                    if (l18 > -1) { break L45; }
                    l20 = (b[((int) l13) - 58911] & 0xff) & 63;
                    L46: {
                     if (l18 + Integer.MIN_VALUE > 2147483615) { break L46; }
                     l17 = ((l17 << 6) & 1984) | l20;
                     break L45;
                    }
                    l21 = (b[((int) l13) - 58910] & 0xff) & 63;
                    L47: {
                     if (l18 + Integer.MIN_VALUE > 2147483631) { break L47; }
                     l17 = ((l20 << 6) | ((l17 << 12) & 61440)) | l21;
                     break L45;
                    }
                    l17 = ((l21 << 6) | ((l20 << 12) | ((l17 << 18) & 1835008))) | ((b[((int) l13) - 58909] & 0xff) & 63);
                   }
                   if ((l17 + -19968) + Integer.MIN_VALUE > -2147462657) { break L43; }
                   l13 = -2L;
                   L48: {
                    if (l19 + Integer.MIN_VALUE > -2147483457) { break L48; }
                    l13 = ((b[((int) (l11 + -3L)) - 58912] & 0xff) + Integer.MIN_VALUE > -2147483457) ? -3L : -4L;
                   }
                   if (f186(m, l1, l13 + l12) != 0) { break L28; }
                  }
                  if (l16 > -1) { break L30; }
                  l17 = b[((int) (l9 + -2L)) - 58912] & 0xff;
                 }
                 l7 = -2L;
                 L49: {
                  if ((l17 & 255) + Integer.MIN_VALUE > -2147483457) { break L49; }
                  l7 = ((b[((int) (l9 + -3L)) - 58912] & 0xff) + Integer.MIN_VALUE > -2147483457) ? -3L : -4L;
                 }
                 l7 = l7 + l8;
                }
                L50: {
                 L51: {
                  if (f187(m, l1, l7) != 0) { break L51; }
                  l12 = l7;
                  break L50;
                 }
                 if (l7 == 0L) { break L29; }
                 if (((int) b[((int) (l1 + (l12 = l7 + -1L))) - 58912]) > -1) { break L50; }
                 l12 = -2L;
                 L52: {
                  if ((b[((int) ((l11 = l1 + l7) + -2L)) - 58912] & 0xff) + Integer.MIN_VALUE > -2147483457) { break L52; }
                  l12 = ((b[((int) (l11 + -3L)) - 58912] & 0xff) + Integer.MIN_VALUE > -2147483457) ? -3L : -4L;
                 }
                 l12 = l12 + l7;
                }
                L53: {
                 if (f187(m, l1, l12) != 0) { break L53; }
                 l10 = l12;
                 break L29;
                }
                if (l12 == 0L) { break L29; }
                if (((int) b[((int) (l1 + (l10 = l12 + -1L))) - 58912]) > -1) { break L29; }
                l7 = -2L;
                L54: {
                 if ((b[((int) ((l10 = l1 + l12) + -2L)) - 58912] & 0xff) + Integer.MIN_VALUE > -2147483457) { break L54; }
                 l7 = ((b[((int) (l10 + -3L)) - 58912] & 0xff) + Integer.MIN_VALUE > -2147483457) ? -3L : -4L;
                }
                l10 = l7 + l12;
               }
               L55: {
                L56: {
                 if (f187(m, l1, l10) != 0) { break L56; }
                 l7 = l10;
                 break L55;
                }
                L57: {
                 if (!(l10 == 0L)) { break L57; }
                 l7 = 0L;
                 break L55;
                }
                if (((int) b[((int) (l1 + (l7 = l10 + -1L))) - 58912]) > -1) { break L55; }
                l7 = -2L;
                L58: {
                 if ((b[((int) ((l12 = l1 + l10) + -2L)) - 58912] & 0xff) + Integer.MIN_VALUE > -2147483457) { break L58; }
                 l7 = ((b[((int) (l12 + -3L)) - 58912] & 0xff) + Integer.MIN_VALUE > -2147483457) ? -3L : -4L;
                }
                l7 = l7 + l10;
               }
               L59: {
                L60: {
                 if (f187(m, l1, l8) == 0) { break L60; }
                 l16 = f188(m, l1, l7);
                 L61: {
                  if (l14 != 0) { break L61; }
                  if (l16 == 0) { break L59; }
                 }
                 if (l16 != 0) { break L28; }
                 break L13;
                }
                if (l14 != 0) { break L13; }
               }
               L62: {
                if ((l14 = (int) b[((int) (l1 + (l7 = l8 + -1L))) - 58912]) > -1) { break L62; }
                l7 = -2L;
                L63: {
                 if ((b[((int) (l9 + -2L)) - 58912] & 0xff) + Integer.MIN_VALUE > -2147483457) { break L63; }
                 l7 = ((b[((int) (l9 + -3L)) - 58912] & 0xff) + Integer.MIN_VALUE > -2147483457) ? -3L : -4L;
                }
                l7 = l7 + l8;
               }
               L64: {
                L65: {
                 if ((l16 = (l7 == 0L) ? 1 : 0) == 0) { break L65; }
                 l10 = 0L;
                 break L64;
                }
                if (((int) b[((int) (l1 + (l10 = l7 + -1L))) - 58912]) > -1) { break L64; }
                l10 = -2L;
                L66: {
                 if ((b[((int) ((l12 = l1 + l7) + -2L)) - 58912] & 0xff) + Integer.MIN_VALUE > -2147483457) { break L66; }
                 l10 = ((b[((int) (l12 + -3L)) - 58912] & 0xff) + Integer.MIN_VALUE > -2147483457) ? -3L : -4L;
                }
                l10 = l10 + l7;
               }
               L67: {
                if (l14 >= 0) { break L67; }
                l12 = -2L;
                L68: {
                 if ((b[((int) (l9 + -2L)) - 58912] & 0xff) + Integer.MIN_VALUE > -2147483457) { break L68; }
                 l12 = ((b[((int) (l9 + -3L)) - 58912] & 0xff) + Integer.MIN_VALUE > -2147483457) ? -3L : -4L;
                }
                l14 = (l17 = (int) b[((int) (l8 = (l1 + l12) + l8)) - 58912]) & 255;
                if (l17 > -1) { break L67; }
                l18 = (b[((int) l8) - 58911] & 0xff) & 63;
                L69: {
                 if (l17 + Integer.MIN_VALUE > 2147483615) { break L69; }
                 l14 = ((l14 << 6) & 1984) | l18;
                 break L67;
                }
                l19 = (b[((int) l8) - 58910] & 0xff) & 63;
                L70: {
                 if (l17 + Integer.MIN_VALUE > 2147483631) { break L70; }
                 l14 = ((l18 << 6) | ((l14 << 12) & 61440)) | l19;
                 break L67;
                }
                l14 = ((l19 << 6) | ((l18 << 12) | ((l14 << 18) & 1835008))) | ((b[((int) l8) - 58909] & 0xff) & 63);
               }
               if (l16 != 0) { break L13; }
               if (((l14 + -58) + Integer.MIN_VALUE < 2147483638) & ((l14 + -65306) + Integer.MIN_VALUE < 2147483638)) { break L13; }
               L71: {
                if ((l14 = (int) b[((int) ((l8 = l1 + l7) + -1L)) - 58912]) >= 0) { break L71; }
                l9 = -2L;
                L72: {
                 if ((b[((int) (l8 + -2L)) - 58912] & 0xff) + Integer.MIN_VALUE > -2147483457) { break L72; }
                 l9 = ((b[((int) (l8 + -3L)) - 58912] & 0xff) + Integer.MIN_VALUE > -2147483457) ? -3L : -4L;
                }
                l14 = (l16 = (int) b[((int) (l8 = (l1 + l9) + l7)) - 58912]) & 255;
                if (l16 > -1) { break L71; }
                l17 = (b[((int) l8) - 58911] & 0xff) & 63;
                L73: {
                 if (l16 + Integer.MIN_VALUE > 2147483615) { break L73; }
                 l14 = ((l14 << 6) & 1984) | l17;
                 break L71;
                }
                l18 = (b[((int) l8) - 58910] & 0xff) & 63;
                L74: {
                 if (l16 + Integer.MIN_VALUE > 2147483631) { break L74; }
                 l14 = ((l17 << 6) | ((l14 << 12) & 61440)) | l18;
                 break L71;
                }
                l14 = ((l18 << 6) | ((l17 << 12) | ((l14 << 18) & 1835008))) | ((b[((int) l8) - 58909] & 0xff) & 63);
               }
               if (l10 == 0L) { break L13; }
               if (((l14 + -58) + Integer.MIN_VALUE < 2147483638) & ((l14 + -65306) + Integer.MIN_VALUE < 2147483638)) { break L13; }
               l14 = l16 = (int) b[((int) ((l8 = l1 + l10) + -1L)) - 58912];
               L75: {
                if (l16 >= 0) { break L75; }
                l7 = -2L;
                L76: {
                 if ((b[((int) (l8 + -2L)) - 58912] & 0xff) + Integer.MIN_VALUE > -2147483457) { break L76; }
                 l7 = ((b[((int) (l8 + -3L)) - 58912] & 0xff) + Integer.MIN_VALUE > -2147483457) ? -3L : -4L;
                }
                l14 = (l17 = (int) b[((int) (l7 = (l1 + l7) + l10)) - 58912]) & 255;
                if (l17 > -1) { break L75; }
                l18 = (b[((int) l7) - 58911] & 0xff) & 63;
                L77: {
                 if (l17 + Integer.MIN_VALUE > 2147483615) { break L77; }
                 l14 = ((l14 << 6) & 1984) | l18;
                 break L75;
                }
                l19 = (b[((int) l7) - 58910] & 0xff) & 63;
                L78: {
                 if (l17 + Integer.MIN_VALUE > 2147483631) { break L78; }
                 l14 = ((l18 << 6) | ((l14 << 12) & 61440)) | l19;
                 break L75;
                }
                l14 = ((l19 << 6) | ((l18 << 12) | ((l14 << 18) & 1835008))) | ((b[((int) l7) - 58909] & 0xff) & 63);
               }
               L79: {
                if (l14 == 65306) { break L79; }
                if (l14 != 58) { break L13; }
               }
               L80: {
                L81: {
                 if (l16 <= -1) { break L81; }
                 l8 = l10 + -1L;
                 break L80;
                }
                l7 = -2L;
                L82: {
                 if ((b[((int) (l8 + -2L)) - 58912] & 0xff) + Integer.MIN_VALUE > -2147483457) { break L82; }
                 l7 = ((b[((int) (l8 + -3L)) - 58912] & 0xff) + Integer.MIN_VALUE > -2147483457) ? -3L : -4L;
                }
                l8 = l7 + l10;
               }
               if (l8 == 0L) { break L13; }
               L83: {
                if ((l14 = (int) b[((int) ((l7 = l1 + l8) + -1L)) - 58912]) >= 0) { break L83; }
                l10 = -2L;
                L84: {
                 if ((b[((int) (l7 + -2L)) - 58912] & 0xff) + Integer.MIN_VALUE > -2147483457) { break L84; }
                 l10 = ((b[((int) (l7 + -3L)) - 58912] & 0xff) + Integer.MIN_VALUE > -2147483457) ? -3L : -4L;
                }
                l14 = (l16 = (int) b[((int) (l8 = (l1 + l10) + l8)) - 58912]) & 255;
                if (l16 > -1) { break L83; }
                l17 = (b[((int) l8) - 58911] & 0xff) & 63;
                L85: {
                 if (l16 + Integer.MIN_VALUE > 2147483615) { break L85; }
                 l14 = ((l14 << 6) & 1984) | l17;
                 break L83;
                }
                l18 = (b[((int) l8) - 58910] & 0xff) & 63;
                L86: {
                 if (l16 + Integer.MIN_VALUE > 2147483631) { break L86; }
                 l14 = ((l17 << 6) | ((l14 << 12) & 61440)) | l18;
                 break L83;
                }
                l14 = ((l18 << 6) | ((l17 << 12) | ((l14 << 18) & 1835008))) | ((b[((int) l8) - 58909] & 0xff) & 63);
               }
               if ((l14 + -48) + Integer.MIN_VALUE < -2147483638) { break L28; }
               if ((l14 + -65296) + Integer.MIN_VALUE >= -2147483638) { break L13; }
              }
              if (l15 == 45) { break L15; }
              l15 = 65374;
             }
             Words.put32(b, ((int) l5) - 58884, 0);
             break L10;
            }
            l15 = 126;
           }
           Words.put32(b, ((int) l5) - 58884, 0);
           break L12;
          }
          Words.put32(b, ((int) l5) - 58884, 0);
          if (l15 + Integer.MIN_VALUE <= -2147483521) { break L12; }
          if (l15 + Integer.MIN_VALUE > -2147481601) { break L11; }
          b[((int) l5) - 58883] = (byte) ((l15 & 63) | 128);
          b[((int) l5) - 58884] = (byte) ((l15 >>> 6) | 192);
          l8 = 2L;
          break L8;
         }
         b[((int) l5) - 58884] = (byte) l15;
         l8 = 1L;
         break L8;
        }
        if (l15 + Integer.MIN_VALUE > -2147418113) { break L9; }
       }
       b[((int) l5) - 58882] = (byte) ((l15 & 63) | 128);
       b[((int) l5) - 58884] = (byte) ((l15 >>> 12) | 224);
       b[((int) l5) - 58883] = (byte) (((l15 >>> 6) & 63) | 128);
       l8 = 3L;
       break L8;
      }
      b[((int) l5) - 58881] = (byte) ((l15 & 63) | 128);
      b[((int) l5) - 58884] = (byte) ((l15 >>> 18) | 240);
      b[((int) l5) - 58882] = (byte) (((l15 >>> 6) & 63) | 128);
      b[((int) l5) - 58883] = (byte) (((l15 >>> 12) & 63) | 128);
      l8 = 4L;
     }
     Core2.f53(m, l5, l5 + 28L, l8);
     l8 = 0L;
     if (l6 != 0L) { continue L4; }
     break L4;
    }
    l6 = 0L;
    l7 = 0L;
    if ((l3 = Words.get64(b, ((int) l5) - 58896)) + Long.MIN_VALUE > l4 + Long.MIN_VALUE) { break L2; }
   }
   final long t87 = Words.get64(b, ((int) l5) - 58912);
   final int t88 = l15 = (Words.get64(b, ((int) l5) - 58904) + Long.MIN_VALUE < l3 + Long.MIN_VALUE) ? 1 : 0;
   l6 = t88 != 0 ? 83372L : t87;
   l7 = l15 != 0 ? 0L : l3;
   l8 = 1L;
  }
  Words.put64(b, ((int) l0) - 58912, l8);
  Words.put64(b, ((int) (l0 + 16L)) - 58912, l7);
  Words.put64(b, ((int) (l0 + 8L)) - 58912, l6);
  m.g0 = l5 + 32L;
  return;
 }
 throw State.trap();
}

static int f186(State m, long l0, long l1) {
 final byte[] b = m.bytes;
 long l2 = 0;
 long l3 = 0;
 long l4 = 0;
 int l5 = 0;
 int l6 = 0;
 int l7 = 0;
 int l8 = 0;
 int l9 = 0;
 L1: {
  if ((l2 = m.g0) < 16L) { break L1; }
  l5 = 0;
  L2: {
   if (l1 == 0L) { break L2; }
   L3: {
    L4: {
     if ((l6 = (int) b[((int) ((l3 = l0 + l1) + -1L)) - 58912]) > -1) { break L4; }
     l4 = -2L;
     L5: {
      if ((b[((int) (l3 + -2L)) - 58912] & 0xff) + Integer.MIN_VALUE > -2147483457) { break L5; }
      l4 = ((b[((int) (l3 + -3L)) - 58912] & 0xff) + Integer.MIN_VALUE > -2147483457) ? -3L : -4L;
     }
     l6 = (l7 = (int) b[((int) (l4 = (l0 + l4) + l1)) - 58912]) & 255;
     L6: {
      if (l7 > -1) { break L6; }
      l8 = (b[((int) l4) - 58911] & 0xff) & 63;
      L7: {
       if (l7 + Integer.MIN_VALUE > 2147483615) { break L7; }
       l6 = ((l6 << 6) & 1984) | l8;
       break L6;
      }
      l9 = (b[((int) l4) - 58910] & 0xff) & 63;
      L8: {
       if (l7 + Integer.MIN_VALUE > 2147483631) { break L8; }
       l6 = ((l8 << 6) | ((l6 << 12) & 61440)) | l9;
       break L6;
      }
      l6 = ((l9 << 6) | ((l8 << 12) | ((l6 << 18) & 1835008))) | ((b[((int) l4) - 58909] & 0xff) & 63);
     }
     if (f189(m, l6) == 0) { break L2; }
     l4 = -2L;
     L9: {
      if ((b[((int) (l3 + -2L)) - 58912] & 0xff) + Integer.MIN_VALUE > -2147483457) { break L9; }
      l4 = ((b[((int) (l3 + -3L)) - 58912] & 0xff) + Integer.MIN_VALUE > -2147483457) ? -3L : -4L;
     }
     l1 = l4 + l1;
     break L3;
    }
    if (f189(m, l6) == 0) { break L2; }
    l1 = l1 + -1L;
   }
   l5 = f188(m, l0, l1);
  }
  m.g0 = l2;
  final int t10 = l5;
  return t10;
 }
 throw State.trap();
}

static int f187(State m, long l0, long l1) {
 final byte[] b = m.bytes;
 long l2 = 0;
 long l3 = 0;
 int l4 = 0;
 int l5 = 0;
 int l6 = 0;
 int l7 = 0;
 L1: {
  if (m.g0 < 16L) { break L1; }
  L2: {
   L3: {
    if (l1 == 0L) { break L3; }
    L4: {
     if ((l4 = (int) b[((int) ((l2 = l0 + l1) + -1L)) - 58912]) >= 0) { break L4; }
     l3 = -2L;
     L5: {
      if ((b[((int) (l2 + -2L)) - 58912] & 0xff) + Integer.MIN_VALUE > -2147483457) { break L5; }
      l3 = ((b[((int) (l2 + -3L)) - 58912] & 0xff) + Integer.MIN_VALUE > -2147483457) ? -3L : -4L;
     }
     l4 = (l5 = (int) b[((int) (l1 = (l0 + l3) + l1)) - 58912]) & 255;
     if (l5 > -1) { break L4; }
     l6 = (b[((int) l1) - 58911] & 0xff) & 63;
     L6: {
      if (l5 + Integer.MIN_VALUE > 2147483615) { break L6; }
      l4 = ((l4 << 6) & 1984) | l6;
      break L4;
     }
     l7 = (b[((int) l1) - 58910] & 0xff) & 63;
     L7: {
      if (l5 + Integer.MIN_VALUE > 2147483631) { break L7; }
      l4 = ((l6 << 6) | ((l4 << 12) & 61440)) | l7;
      break L4;
     }
     l4 = ((l7 << 6) | ((l6 << 12) | ((l4 << 18) & 1835008))) | ((b[((int) l1) - 58909] & 0xff) & 63);
    }
    l5 = 1;
    if (((l4 & -33) + -65) + Integer.MIN_VALUE < -2147483622) { break L2; }
    L8: {
     if (l4 > 8450) { break L8; }
     if (l4 == 176) { break L2; }
     if (l4 == 956) { break L2; }
     if (l4 != 8240) { break L3; }
     break L2;
    }
    if (l4 == 8451) { break L2; }
    if (l4 == 13217) { break L2; }
    if (l4 == 21322) { break L2; }
   }
   l5 = 0;
  }
  final int t9 = l5;
  return t9;
 }
 throw State.trap();
}

static int f188(State m, long l0, long l1) {
 final byte[] b = m.bytes;
 int l2 = 0;
 int l3 = 0;
 int l4 = 0;
 int l5 = 0;
 int l6 = 0;
 long l7 = 0;
 long l8 = 0;
 L1: {
  if (m.g0 < 16L) { break L1; }
  l2 = 0;
  L2: {
   if (l1 == 0L) { break L2; }
   L3: {
    L4: {
     L5: {
      L6: {
       if ((l3 = (int) b[((int) ((l7 = l0 + l1) + -1L)) - 58912]) > -1) { break L6; }
       l8 = -2L;
       L7: {
        if ((b[((int) (l7 + -2L)) - 58912] & 0xff) + Integer.MIN_VALUE > -2147483457) { break L7; }
        l8 = ((b[((int) (l7 + -3L)) - 58912] & 0xff) + Integer.MIN_VALUE > -2147483457) ? -3L : -4L;
       }
       l3 = (l4 = (int) b[((int) (l8 = (l0 + l8) + l1)) - 58912]) & 255;
       L8: {
        if (l4 > -1) { break L8; }
        l5 = (b[((int) l8) - 58911] & 0xff) & 63;
        L9: {
         if (l4 + Integer.MIN_VALUE > 2147483615) { break L9; }
         l3 = ((l3 << 6) & 1984) | l5;
         break L8;
        }
        l6 = (b[((int) l8) - 58910] & 0xff) & 63;
        L10: {
         if (l4 + Integer.MIN_VALUE > 2147483631) { break L10; }
         l3 = ((l5 << 6) | ((l3 << 12) & 61440)) | l6;
         break L8;
        }
        l3 = ((l6 << 6) | ((l5 << 12) | ((l3 << 18) & 1835008))) | ((b[((int) l8) - 58909] & 0xff) & 63);
       }
       l8 = -2L;
       l4 = b[((int) (l7 + -2L)) - 58912] & 0xff;
       if (l3 != 32) { break L4; }
       l8 = -2L;
       L11: {
        if ((l4 & 255) + Integer.MIN_VALUE > -2147483457) { break L11; }
        l8 = ((b[((int) (l7 + -3L)) - 58912] & 0xff) + Integer.MIN_VALUE > -2147483457) ? -3L : -4L;
       }
       l1 = l8 + l1;
       break L5;
      }
      if (l3 != 32) { break L3; }
      l1 = l1 + -1L;
     }
     if (l1 == 0L) { break L2; }
     L12: {
      if ((l2 = (int) b[((int) ((l7 = l0 + l1) + -1L)) - 58912]) >= 0) { break L12; }
      l8 = -2L;
      L13: {
       if ((b[((int) (l7 + -2L)) - 58912] & 0xff) + Integer.MIN_VALUE > -2147483457) { break L13; }
       l8 = ((b[((int) (l7 + -3L)) - 58912] & 0xff) + Integer.MIN_VALUE > -2147483457) ? -3L : -4L;
      }
      l2 = (l3 = (int) b[((int) (l1 = (l0 + l8) + l1)) - 58912]) & 255;
      if (l3 > -1) { break L12; }
      l4 = (b[((int) l1) - 58911] & 0xff) & 63;
      L14: {
       if (l3 + Integer.MIN_VALUE > 2147483615) { break L14; }
       l2 = ((l2 << 6) & 1984) | l4;
       break L12;
      }
      l5 = (b[((int) l1) - 58910] & 0xff) & 63;
      L15: {
       if (l3 + Integer.MIN_VALUE > 2147483631) { break L15; }
       l2 = ((l4 << 6) | ((l2 << 12) & 61440)) | l5;
       break L12;
      }
      l2 = ((l5 << 6) | ((l4 << 12) | ((l2 << 18) & 1835008))) | ((b[((int) l1) - 58909] & 0xff) & 63);
     }
     final int t16 = (((l2 + -48) + Integer.MIN_VALUE < -2147483638) | ((l2 + -65296) + Integer.MIN_VALUE < -2147483638)) ? 1 : 0;
     return t16;
    }
    L17: {
     if ((l4 & 255) + Integer.MIN_VALUE > -2147483457) { break L17; }
     l8 = ((b[((int) (l7 + -3L)) - 58912] & 0xff) + Integer.MIN_VALUE > -2147483457) ? -3L : -4L;
    }
    l3 = (l2 = (int) b[((int) (l1 = (l0 + l8) + l1)) - 58912]) & 255;
    if (l2 > -1) { break L3; }
    l4 = (b[((int) l1) - 58911] & 0xff) & 63;
    L18: {
     if (l2 + Integer.MIN_VALUE > 2147483615) { break L18; }
     l3 = ((l3 << 6) & 1984) | l4;
     break L3;
    }
    l5 = (b[((int) l1) - 58910] & 0xff) & 63;
    L19: {
     if (l2 + Integer.MIN_VALUE > 2147483631) { break L19; }
     l3 = ((l4 << 6) | ((l3 << 12) & 61440)) | l5;
     break L3;
    }
    l3 = ((l5 << 6) | ((l4 << 12) | ((l3 << 18) & 1835008))) | ((b[((int) l1) - 58909] & 0xff) & 63);
   }
   l2 = (((l3 + -48) + Integer.MIN_VALUE < -2147483638) | ((l3 + -65296) + Integer.MIN_VALUE < -2147483638)) ? 1 : 0;
  }
  final int t20 = l2;
  return t20;
 }
 throw State.trap();
}

static int f189(State m, int l0) {
 final byte[] b = m.bytes;
 long l1 = 0;
 int l2 = 0;
 int l3 = 0;
 L1: {
  if (m.g0 < 16L) { break L1; }
  l1 = -668L;
  L2: {
   L3: while (true) {
    if ((l2 = (Words.get32(b, ((int) (l1 + 87276L)) - 58912) == l0) ? 1 : 0) != 0) { break L2; }
    l3 = (l1 != 0L) ? 1 : 0;
    l1 = l1 + 4L;
    if (l3 != 0) { continue L3; }
    break L3;
   }
  }
  l3 = 1;
  L4: {
   if (l2 != 0) { break L4; }
   L5: {
    L6: {
     if (l0 > 26846) { break L6; }
     L7: {
      if (l0 > 25162) { break L7; }
      L8: {
       if (l0 > 23382) { break L8; }
       L9: {
        if (l0 > 20739) { break L9; }
        if (l0 == 19975) { break L4; }
        if (l0 != 20159) { break L5; }
        break L4;
       }
       if (l0 == 20740) { break L4; }
       if (l0 != 21495) { break L5; }
       break L4;
      }
      L10: {
       if (l0 > 23651) { break L10; }
       if (l0 == 23383) { break L4; }
       if (l0 != 23618) { break L5; }
       break L4;
      }
      if (l0 == 23652) { break L4; }
      if (l0 != 24162) { break L5; }
      break L4;
     }
     L11: {
      if (l0 > 26177) { break L11; }
      L12: {
       switch (l0 + -26085) {
       case 0: case 17: break L4;
       case 1: case 2: case 3: case 4: case 5: case 6: case 7: case 8: case 9: case 10: case 11: case 12: case 13: case 14: case 15: case 16: break L5;
       default: break L12;
       }
      }
      if (l0 == 25163) { break L4; }
      if (l0 != 25240) { break L5; }
      break L4;
     }
     L13: {
      if (l0 > 26398) { break L13; }
      if (l0 == 26178) { break L4; }
      if (l0 != 26376) { break L5; }
      break L4;
     }
     if (l0 == 26399) { break L4; }
     if (l0 != 26635) { break L5; }
     break L4;
    }
    L14: {
     if (l0 > 32025) { break L14; }
     L15: {
      if (l0 > 27572) { break L15; }
      if (l0 == 26847) { break L4; }
      if (l0 == 27004) { break L4; }
      if (l0 != 27155) { break L5; }
      break L4;
     }
     L16: {
      if (l0 > 30333) { break L16; }
      if (l0 == 27573) { break L4; }
      if (l0 != 29677) { break L5; }
      break L4;
     }
     if (l0 == 30334) { break L4; }
     if (l0 != 31456) { break L5; }
     break L4;
    }
    L17: {
     if (l0 > 33835) { break L17; }
     L18: {
      if (l0 > 32422) { break L18; }
      if (l0 == 32026) { break L4; }
      if (l0 != 32218) { break L5; }
      break L4;
     }
     if (l0 == 32423) { break L4; }
     if (l0 != 32447) { break L5; }
     break L4;
    }
    L19: {
     if (l0 > 34891) { break L19; }
     if (l0 == 33836) { break L4; }
     if (l0 != 34399) { break L5; }
     break L4;
    }
    if (l0 == 34892) { break L4; }
    if (l0 == 36335) { break L4; }
   }
   l3 = 0;
  }
  final int t20 = l3;
  return t20;
 }
 throw State.trap();
}

static int f190_1(State m, long l1, long l2, long l3, long l4, int l5, int l6, long l7, long l8, long l9, long l10, long l11, long l12, long l13, long l14, long l15, long l16, long l17, long l18, long l19, long l20, long l21, long l22, long l23, long l24, long l25, long l26, long l27, long l28, long l29, long l30, int l31, int l32, int l33) {
 final byte[] b = m.bytes;
 int exit = 0;
 PART: {
  L21: {
   L22: {
    L23: {
     if ((b[((int) l7) - 58000] & 0xff) != 1) { break L23; }
     l24 = Words.get64(b, ((int) l7) - 57880);
     l25 = Words.get64(b, ((int) l7) - 57968);
     l23 = Words.get64(b, ((int) l7) - 57976);
     l3 = l26 = Words.get64(b, ((int) l7) - 57888);
     L24: {
      L25: {
       L26: {
        L27: {
         switch (l33 = b[((int) l7) - 57992] & 0xff) {
         case 1: break L26;
         case 2: break L24;
         case 3: break L25;
         default: break L27;
         }
        }
        l3 = l25;
        break L24;
       }
       l3 = l24;
       break L24;
      }
      l3 = l23;
     }
     l27 = l33 & 0xffffffffL;
     l28 = l2 - l19;
     l29 = Words.get64(b, ((int) l7) - 57896);
     l30 = Words.get64(b, ((int) l7) - 57984);
     l22 = l7 + 952L;
     l18 = l20;
     l4 = l8 = l19 - l3;
     L28: {
      L29: while (true) {
       if (l4 == 0L) { break L28; }
       l6 = (l5 = (int) b[((int) l18) - 58912]) & 255;
       l3 = 1L;
       L30: {
        if (l5 > -1) { break L30; }
        l32 = (b[((int) l18) - 58911] & 0xff) & 63;
        L31: {
         if (l5 + Integer.MIN_VALUE > 2147483615) { break L31; }
         l6 = ((l6 << 6) & 1984) | l32;
         l3 = 2L;
         break L30;
        }
        l31 = (b[((int) l18) - 58910] & 0xff) & 63;
        L32: {
         if (l5 + Integer.MIN_VALUE > 2147483631) { break L32; }
         l6 = ((l32 << 6) | ((l6 << 12) & 61440)) | l31;
         l3 = 3L;
         break L30;
        }
        l6 = ((l31 << 6) | ((l32 << 12) | ((l6 << 18) & 1835008))) | ((b[((int) l18) - 58909] & 0xff) & 63);
        l3 = 4L;
       }
       L33: {
        if ((l6 + -48) + Integer.MIN_VALUE < -2147483638) { break L33; }
        l4 = l4 - l3;
        l18 = l18 + l3;
        if ((l6 + -65296) + Integer.MIN_VALUE > -2147483639) { continue L29; }
       }
       break L29;
      }
      if (l8 == 0L) { break L28; }
      L34: {
       L35: {
        if ((l6 = (int) b[((int) l20) - 58912]) <= -1) { break L35; }
        l18 = 1L;
        break L34;
       }
       L36: {
        if (l6 + Integer.MIN_VALUE >= 2147483616) { break L36; }
        l18 = 2L;
        break L34;
       }
       l18 = (l6 + Integer.MIN_VALUE < 2147483632) ? 3L : 4L;
      }
      if (l8 == l18) { break L28; }
      if (l2 == l19) { break L22; }
      L37: {
       if (((int) b[((int) (l1 + (l18 = l28 + -1L))) - 58912]) > -1) { break L37; }
       l18 = -2L;
       L38: {
        if ((b[((int) ((l3 = l1 + l28) + -2L)) - 58912] & 0xff) + Integer.MIN_VALUE > -2147483457) { break L38; }
        l18 = ((b[((int) (l3 + -3L)) - 58912] & 0xff) + Integer.MIN_VALUE > -2147483457) ? -3L : -4L;
       }
       l18 = l18 + l28;
      }
      if (l18 == 0L) { break L22; }
      L39: {
       if ((l6 = (int) b[((int) ((l3 = l1 + l18) + -1L)) - 58912]) >= 0) { break L39; }
       l4 = -2L;
       L40: {
        if ((b[((int) (l3 + -2L)) - 58912] & 0xff) + Integer.MIN_VALUE > -2147483457) { break L40; }
        l4 = ((b[((int) (l3 + -3L)) - 58912] & 0xff) + Integer.MIN_VALUE > -2147483457) ? -3L : -4L;
       }
       l6 = (l5 = (int) b[((int) (l18 = (l1 + l4) + l18)) - 58912]) & 255;
       if (l5 > -1) { break L39; }
       l32 = (b[((int) l18) - 58911] & 0xff) & 63;
       L41: {
        if (l5 + Integer.MIN_VALUE > 2147483615) { break L41; }
        l6 = ((l6 << 6) & 1984) | l32;
        break L39;
       }
       l31 = (b[((int) l18) - 58910] & 0xff) & 63;
       L42: {
        if (l5 + Integer.MIN_VALUE > 2147483631) { break L42; }
        l6 = ((l32 << 6) | ((l6 << 12) & 61440)) | l31;
        break L39;
       }
       l6 = ((l31 << 6) | ((l32 << 12) | ((l6 << 18) & 1835008))) | ((b[((int) l18) - 58909] & 0xff) & 63);
      }
      if (((l6 & -33) + -91) + Integer.MIN_VALUE < 2147483622) { break L22; }
     }
     l17 = 0L;
     l16 = 0L;
     l15 = 0L;
     l14 = 0L;
     l13 = 0L;
     l12 = 0L;
     l11 = 0L;
     l10 = 0L;
     l9 = 0L;
     l8 = 0L;
     l4 = 0L;
     l3 = 0L;
     l18 = 0L;
     break L21;
    }
    Words.put64(b, ((int) l7) - 58464, 0L);
    Words.put64(b, ((int) l7) - 58472, 0L);
    Words.put64(b, ((int) l7) - 58480, 0L);
    Words.put64(b, ((int) l7) - 58488, 0L);
    Words.put64(b, ((int) l7) - 58496, 0L);
    Words.put64(b, ((int) l7) - 58504, 0L);
    Words.put64(b, ((int) l7) - 58512, 0L);
    Words.put64(b, ((int) l7) - 58520, 0L);
    Words.put64(b, ((int) l7) - 58568, 0L);
    Words.put64(b, ((int) l7) - 58560, 0L);
    Words.put64(b, ((int) l7) - 58552, 0L);
    Words.put64(b, ((int) l7) - 58544, 0L);
    Words.put64(b, ((int) l7) - 58536, 0L);
    Words.put64(b, ((int) l7) - 58528, 0L);
    l17 = 0L;
    l16 = 0L;
    l15 = 0L;
    l14 = 0L;
    l13 = 0L;
    l12 = 0L;
    l11 = 0L;
    l10 = 0L;
    l9 = 0L;
    l8 = 0L;
    l4 = 0L;
    l3 = 0L;
    exit = 1; break PART;
   }
   Words.put64(b, ((int) l7) - 57848, l25);
   Words.put64(b, ((int) l7) - 57856, l23);
   Words.put64(b, ((int) l7) - 57864, l30);
   Words.put64(b, ((int) l7) - 57872, l27);
   Words.put64(b, ((int) l7) - 57840, Words.get64(b, ((int) l22) - 58912));
   Words.put64(b, ((int) l7) - 57832, Words.get64(b, ((int) l22) - 58904));
   Words.put64(b, ((int) l7) - 57824, Words.get64(b, ((int) l22) - 58896));
   Words.put64(b, ((int) l7) - 57816, Words.get64(b, ((int) l22) - 58888));
   Words.put64(b, ((int) l7) - 57808, Words.get64(b, ((int) l22) - 58880));
   Words.put64(b, ((int) l7) - 57800, Words.get64(b, ((int) l22) - 58872));
   Words.put64(b, ((int) l7) - 57792, Words.get64(b, ((int) l22) - 58864));
   Words.put64(b, ((int) l7) - 57784, Words.get64(b, ((int) l22) - 58856));
   Words.put64(b, ((int) l7) - 57760, l24);
   Words.put64(b, ((int) l7) - 57768, l26);
   Words.put64(b, ((int) l7) - 57776, l29);
   l17 = 0L;
   l16 = 0L;
   l15 = 0L;
   l14 = 0L;
   l13 = 0L;
   l12 = 0L;
   l11 = 0L;
   l10 = 0L;
   l9 = 0L;
   l8 = 0L;
   l4 = 0L;
   l3 = 0L;
   l18 = 0L;
   if (f192(m, l1, l28, l20, l19, l7 + 1040L) == 0) { break L21; }
   Words.put64(b, ((int) l7) - 57824, 0L);
   Words.put64(b, ((int) l7) - 57832, 0L);
   Words.put64(b, ((int) l7) - 57840, 0L);
   Words.put64(b, ((int) l7) - 57848, 0L);
   Words.put64(b, ((int) l7) - 57856, 0L);
   Words.put64(b, ((int) l7) - 57864, 0L);
   Words.put64(b, ((int) l7) - 57872, 0L);
   L43: {
    L44: {
     L45: {
      L46: {
       L47: {
        switch (l33) {
        case 1: break L46;
        case 2: break L45;
        case 3: break L44;
        default: break L47;
        }
       }
       l18 = l23;
       l3 = l25;
       break L43;
      }
      l18 = l26;
      l3 = l24;
      break L43;
     }
     Words.put64(b, ((int) l7) - 57720, 0L);
     Words.put64(b, ((int) l7) - 57728, 0L);
     Words.put64(b, ((int) l7) - 57736, 0L);
     Words.put64(b, ((int) l7) - 57744, 0L);
     Words.put64(b, ((int) l7) - 57752, 0L);
     f193(m, l7 + 1160L, l29, l26);
     final long t48 = Words.get64(b, ((int) l7) - 57720);
     final long t49 = l26;
     final int t50 = l6 = ((b[((int) l7) - 57752] & 0xff) == 1) ? 1 : 0;
     l3 = t50 != 0 ? t48 : t49;
     final long t51 = Words.get64(b, ((int) l7) - 57728);
     final long t52 = l29;
     final int t53 = l6;
     l18 = t53 != 0 ? t51 : t52;
     break L43;
    }
    Words.put64(b, ((int) l7) - 57720, 0L);
    Words.put64(b, ((int) l7) - 57728, 0L);
    Words.put64(b, ((int) l7) - 57736, 0L);
    Words.put64(b, ((int) l7) - 57744, 0L);
    Words.put64(b, ((int) l7) - 57752, 0L);
    f193(m, l7 + 1160L, l30, l23);
    final long t54 = Words.get64(b, ((int) l7) - 57720);
    final long t55 = l23;
    final int t56 = l6 = ((b[((int) l7) - 57752] & 0xff) == 1) ? 1 : 0;
    l3 = t56 != 0 ? t54 : t55;
    final long t57 = Words.get64(b, ((int) l7) - 57728);
    final long t58 = l30;
    final int t59 = l6;
    l18 = t59 != 0 ? t57 : t58;
   }
   f194(m, l7 + 1040L, 0, 1, l18, l3);
   Words.put64(b, ((int) l7) - 58112, Words.get64(b, ((int) l7) - 57864));
   Words.put64(b, ((int) l7) - 58104, Words.get64(b, ((int) l7) - 57856));
   Words.put64(b, ((int) l7) - 58096, Words.get64(b, ((int) l7) - 57848));
   Words.put64(b, ((int) l7) - 58088, Words.get64(b, ((int) l7) - 57840));
   Words.put64(b, ((int) l7) - 58080, Words.get64(b, ((int) l7) - 57832));
   Words.put64(b, ((int) l7) - 58072, Words.get64(b, ((int) l7) - 57824));
   l3 = b[((int) l7) - 57872] & 0xffL;
   Words.put64(b, ((int) l7) - 58064, Words.get64(b, ((int) l22) - 58912));
   Words.put64(b, ((int) l7) - 58056, Words.get64(b, ((int) l22) - 58904));
   Words.put64(b, ((int) l7) - 58048, Words.get64(b, ((int) l22) - 58896));
   Words.put64(b, ((int) l7) - 58040, Words.get64(b, ((int) l22) - 58888));
   Words.put64(b, ((int) l7) - 58032, Words.get64(b, ((int) l22) - 58880));
   Words.put64(b, ((int) l7) - 58024, Words.get64(b, ((int) l22) - 58872));
   Words.put64(b, ((int) l7) - 58016, Words.get64(b, ((int) l22) - 58864));
   Words.put64(b, ((int) l7) - 58008, Words.get64(b, ((int) l22) - 58856));
   l18 = 1L;
   l4 = 6L;
   l16 = 2L;
   l17 = 83372L;
   l15 = l27;
   l14 = l30;
   l13 = l23;
   l12 = l25;
   l11 = l29;
   l10 = l26;
   l9 = l24;
   l8 = l21;
  }
 }
 m.kept[0] = l3;
 m.kept[1] = l4;
 m.kept[2] = l5;
 m.kept[3] = l6;
 m.kept[4] = l8;
 m.kept[5] = l9;
 m.kept[6] = l10;
 m.kept[7] = l11;
 m.kept[8] = l12;
 m.kept[9] = l13;
 m.kept[10] = l14;
 m.kept[11] = l15;
 m.kept[12] = l16;
 m.kept[13] = l17;
 m.kept[14] = l18;
 m.kept[15] = l22;
 m.kept[16] = l23;
 m.kept[17] = l24;
 m.kept[18] = l25;
 m.kept[19] = l26;
 m.kept[20] = l27;
 m.kept[21] = l28;
 m.kept[22] = l29;
 m.kept[23] = l30;
 m.kept[24] = l31;
 m.kept[25] = l32;
 m.kept[26] = l33;
 return exit;
}

static void f190(State m, long l0, long l1, long l2, long l3, long l4, int l5, int l6) {
 final byte[] b = m.bytes;
 long l7 = 0;
 long l8 = 0;
 long l9 = 0;
 long l10 = 0;
 long l11 = 0;
 long l12 = 0;
 long l13 = 0;
 long l14 = 0;
 long l15 = 0;
 long l16 = 0;
 long l17 = 0;
 long l18 = 0;
 long l19 = 0;
 long l20 = 0;
 long l21 = 0;
 long l22 = 0;
 long l23 = 0;
 long l24 = 0;
 long l25 = 0;
 long l26 = 0;
 long l27 = 0;
 long l28 = 0;
 long l29 = 0;
 long l30 = 0;
 int l31 = 0;
 int l32 = 0;
 int l33 = 0;
 int l34 = 0;
 m.g0 = l7 = m.g0 - 1200L;
 L1: {
  if ((l7 = l7) < 16L) { break L1; }
  m.fill((int) (l7 + 112L), 0, (int) 232L);
  f191(m, l7 + 112L, l1, l2, l3, l4, l5, l6);
  L2: {
   L3: {
    if ((b[((int) l7) - 58800] & 0xff) != 1) { break L3; }
    Words.put64(b, ((int) l7) - 58864, Words.get64(b, ((int) l7) - 58728));
    Words.put64(b, ((int) l7) - 58856, Words.get64(b, ((int) l7) - 58720));
    Words.put64(b, ((int) l7) - 58848, Words.get64(b, ((int) l7) - 58712));
    Words.put64(b, ((int) l7) - 58840, Words.get64(b, ((int) l7) - 58704));
    Words.put64(b, ((int) l7) - 58832, Words.get64(b, ((int) l7) - 58696));
    Words.put64(b, ((int) l7) - 58824, Words.get64(b, ((int) l7) - 58688));
    Words.put64(b, ((int) l7) - 58816, Words.get64(b, ((int) l7) - 58680));
    Words.put64(b, ((int) l7) - 58808, Words.get64(b, ((int) l7) - 58672));
    l3 = Words.get64(b, ((int) l7) - 58624);
    l4 = Words.get64(b, ((int) l7) - 58632);
    l8 = Words.get64(b, ((int) l7) - 58640);
    l9 = Words.get64(b, ((int) l7) - 58648);
    l10 = Words.get64(b, ((int) l7) - 58656);
    l11 = Words.get64(b, ((int) l7) - 58664);
    l12 = Words.get64(b, ((int) l7) - 58736);
    l13 = Words.get64(b, ((int) l7) - 58744);
    l14 = Words.get64(b, ((int) l7) - 58752);
    l15 = Words.get64(b, ((int) l7) - 58760);
    l16 = Words.get64(b, ((int) l7) - 58768);
    l2 = Words.get64(b, ((int) l7) - 58776);
    l17 = Words.get64(b, ((int) l7) - 58784);
    l18 = b[((int) l7) - 58792] & 0xffL;
    Words.put64(b, ((int) l7) - 58872, Words.get64(b, ((int) l7) - 58576));
    Words.put64(b, ((int) l7) - 58880, Words.get64(b, ((int) l7) - 58584));
    Words.put64(b, ((int) l7) - 58888, Words.get64(b, ((int) l7) - 58592));
    Words.put64(b, ((int) l7) - 58896, Words.get64(b, ((int) l7) - 58600));
    Words.put64(b, ((int) l7) - 58904, Words.get64(b, ((int) l7) - 58608));
    Words.put64(b, ((int) l7) - 58912, Words.get64(b, ((int) l7) - 58616));
    l1 = 1L;
    break L2;
   }
   m.fill((int) (l7 + 456L), 0, (int) 232L);
   l18 = 0L;
   Words.put64(b, ((int) l7) - 58464, 0L);
   Words.put64(b, ((int) l7) - 58472, 0L);
   Words.put64(b, ((int) l7) - 58480, 0L);
   Words.put64(b, ((int) l7) - 58488, 0L);
   Words.put64(b, ((int) l7) - 58496, 0L);
   Words.put64(b, ((int) l7) - 58504, 0L);
   Words.put64(b, ((int) l7) - 58512, 0L);
   Words.put64(b, ((int) l7) - 58520, 0L);
   Words.put64(b, ((int) l7) - 58568, 0L);
   Words.put64(b, ((int) l7) - 58560, 0L);
   Words.put64(b, ((int) l7) - 58552, 0L);
   Words.put64(b, ((int) l7) - 58544, 0L);
   Words.put64(b, ((int) l7) - 58536, 0L);
   Words.put64(b, ((int) l7) - 58528, 0L);
   L4: {
    L5: {
     L6: {
      L7: {
       L8: {
        L9: {
         L10: {
          if (l4 == 0L) { break L10; }
          l32 = (l31 = (int) b[((int) l3) - 58912]) & 255;
          l18 = 1L;
          L11: {
           if (l31 > -1) { break L11; }
           l33 = (b[((int) l3) - 58911] & 0xff) & 63;
           L12: {
            if (l31 + Integer.MIN_VALUE > 2147483615) { break L12; }
            l32 = ((l32 << 6) & 1984) | l33;
            l18 = 2L;
            break L11;
           }
           l34 = (b[((int) l3) - 58910] & 0xff) & 63;
           L13: {
            if (l31 + Integer.MIN_VALUE > 2147483631) { break L13; }
            l32 = ((l33 << 6) | ((l32 << 12) & 61440)) | l34;
            l18 = 3L;
            break L11;
           }
           l32 = ((l34 << 6) | ((l33 << 12) | ((l32 << 18) & 1835008))) | ((b[((int) l3) - 58909] & 0xff) & 63);
           l18 = 4L;
          }
          l19 = l4 - l18;
          l20 = l3 + l18;
          l21 = 97991L;
          l18 = 0L;
          L14: {
           L15: {
            L16: {
             if (l32 > 8775) { break L16; }
             l17 = 0L;
             l16 = 0L;
             l15 = 0L;
             l14 = 0L;
             l13 = 0L;
             l12 = 0L;
             l11 = 0L;
             l10 = 0L;
             l9 = 0L;
             l8 = 0L;
             l4 = 0L;
             l3 = 0L;
             L17: {
              switch (l32 + -163) {
              case 0: break L7;
              case 1: case 2: case 3: case 4: case 5: case 6: case 7: case 8: case 9: case 10: case 11: case 12: case 13: break L5;
              case 14: break L15;
              default: break L17;
              }
             }
             if (l32 == 36) { break L6; }
             l17 = 0L;
             l16 = 0L;
             l15 = 0L;
             l14 = 0L;
             l13 = 0L;
             l12 = 0L;
             l11 = 0L;
             l10 = 0L;
             l9 = 0L;
             l8 = 0L;
             l4 = 0L;
             l3 = 0L;
             if (l32 != 8364) { break L5; }
             l21 = 97997L;
             break L6;
            }
            l22 = 97952L;
            l23 = 12L;
            l17 = 0L;
            l16 = 0L;
            l15 = 0L;
            l14 = 0L;
            l13 = 0L;
            l12 = 0L;
            l11 = 0L;
            l10 = 0L;
            l9 = 0L;
            l8 = 0L;
            l4 = 0L;
            l3 = 0L;
            L18: {
             switch (l32 + -8776) {
             case 0: break L14;
             case 1: case 2: case 3: case 4: case 5: case 6: case 7: case 8: case 9: case 10: case 11: case 12: case 13: case 14: case 15: case 16: case 17: case 18: case 19: case 20: case 21: case 22: case 23: case 24: case 25: case 26: case 27: break L5;
             case 28: break L9;
             case 29: break L8;
             default: break L18;
             }
            }
            l17 = 0L;
            l16 = 0L;
            l15 = 0L;
            l14 = 0L;
            l13 = 0L;
            l12 = 0L;
            l11 = 0L;
            l10 = 0L;
            l9 = 0L;
            l8 = 0L;
            l4 = 0L;
            l3 = 0L;
            if (l32 == 65284) { break L6; }
            break L5;
           }
           l22 = 97976L;
           l23 = 6L;
           break L8;
          }
          l22 = 97982L;
          l23 = 9L;
          break L8;
         }
         Words.put64(b, ((int) l7) - 58808, 0L);
         Words.put64(b, ((int) l7) - 58816, 0L);
         Words.put64(b, ((int) l7) - 58824, 0L);
         Words.put64(b, ((int) l7) - 58832, 0L);
         Words.put64(b, ((int) l7) - 58840, 0L);
         Words.put64(b, ((int) l7) - 58848, 0L);
         Words.put64(b, ((int) l7) - 58856, 0L);
         Words.put64(b, ((int) l7) - 58864, 0L);
         Words.put64(b, ((int) l7) - 58912, 0L);
         Words.put64(b, ((int) l7) - 58904, 0L);
         Words.put64(b, ((int) l7) - 58896, 0L);
         Words.put64(b, ((int) l7) - 58888, 0L);
         Words.put64(b, ((int) l7) - 58880, 0L);
         Words.put64(b, ((int) l7) - 58872, 0L);
         l17 = 0L;
         l2 = 0L;
         l16 = 0L;
         l15 = 0L;
         l14 = 0L;
         l13 = 0L;
         l12 = 0L;
         l11 = 0L;
         l10 = 0L;
         l9 = 0L;
         l8 = 0L;
         l4 = 0L;
         l3 = 0L;
         break L4;
        }
        l22 = 97964L;
       }
       f191(m, l7 + 456L, l1, l2, l20, l19, l5, l6);
       l16 = 0L;
       Words.put64(b, ((int) l7) - 58176, 0L);
       Words.put64(b, ((int) l7) - 58168, 0L);
       Words.put64(b, ((int) l7) - 58160, 0L);
       Words.put64(b, ((int) l7) - 58152, 0L);
       Words.put64(b, ((int) l7) - 58144, 0L);
       Words.put64(b, ((int) l7) - 58136, 0L);
       Words.put64(b, ((int) l7) - 58128, 0L);
       Words.put64(b, ((int) l7) - 58120, 0L);
       Words.put64(b, ((int) l7) - 58224, 0L);
       Words.put64(b, ((int) l7) - 58216, 0L);
       Words.put64(b, ((int) l7) - 58208, 0L);
       Words.put64(b, ((int) l7) - 58200, 0L);
       Words.put64(b, ((int) l7) - 58192, 0L);
       Words.put64(b, ((int) l7) - 58184, 0L);
       L19: {
        L20: {
         if ((b[((int) l7) - 58456] & 0xff) == 1) { break L20; }
         l15 = 0L;
         l14 = 0L;
         l13 = 0L;
         l12 = 0L;
         l11 = 0L;
         l10 = 0L;
         l9 = 0L;
         l8 = 0L;
         l4 = 0L;
         l3 = 0L;
         l17 = 0L;
         l2 = 0L;
         l18 = 0L;
         break L19;
        }
        l15 = 0L;
        l14 = 0L;
        l13 = 0L;
        l12 = 0L;
        l11 = 0L;
        l10 = 0L;
        l9 = 0L;
        l8 = 0L;
        l4 = 0L;
        l3 = 0L;
        l17 = 0L;
        l2 = 0L;
        l18 = 0L;
        if (((b[((int) l7) - 58448] & 0xff) & 255) != 0) { break L19; }
        Words.put64(b, ((int) l7) - 58176, Words.get64(b, ((int) l7) - 58400));
        Words.put64(b, ((int) l7) - 58168, Words.get64(b, ((int) l7) - 58392));
        Words.put64(b, ((int) l7) - 58160, Words.get64(b, ((int) l7) - 58384));
        Words.put64(b, ((int) l7) - 58152, Words.get64(b, ((int) l7) - 58376));
        Words.put64(b, ((int) l7) - 58144, Words.get64(b, ((int) l7) - 58368));
        Words.put64(b, ((int) l7) - 58136, Words.get64(b, ((int) l7) - 58360));
        Words.put64(b, ((int) l7) - 58128, Words.get64(b, ((int) l7) - 58352));
        Words.put64(b, ((int) l7) - 58120, Words.get64(b, ((int) l7) - 58344));
        l12 = Words.get64(b, ((int) l7) - 58408);
        l13 = Words.get64(b, ((int) l7) - 58416);
        l14 = Words.get64(b, ((int) l7) - 58424);
        l15 = Words.get64(b, ((int) l7) - 58432);
        l16 = Words.get64(b, ((int) l7) - 58440);
        Words.put64(b, ((int) l7) - 58184, Words.get64(b, ((int) l7) - 58248));
        Words.put64(b, ((int) l7) - 58192, Words.get64(b, ((int) l7) - 58256));
        Words.put64(b, ((int) l7) - 58200, Words.get64(b, ((int) l7) - 58264));
        Words.put64(b, ((int) l7) - 58208, Words.get64(b, ((int) l7) - 58272));
        Words.put64(b, ((int) l7) - 58216, Words.get64(b, ((int) l7) - 58280));
        Words.put64(b, ((int) l7) - 58224, Words.get64(b, ((int) l7) - 58288));
        l18 = 1L;
        l3 = Words.get64(b, ((int) l7) - 58296);
        l4 = Words.get64(b, ((int) l7) - 58304);
        l8 = Words.get64(b, ((int) l7) - 58312);
        l9 = Words.get64(b, ((int) l7) - 58320);
        l10 = Words.get64(b, ((int) l7) - 58328);
        l11 = Words.get64(b, ((int) l7) - 58336);
        l17 = l22;
        l2 = l23;
       }
       Words.put64(b, ((int) l7) - 58808, Words.get64(b, ((int) l7) - 58120));
       Words.put64(b, ((int) l7) - 58816, Words.get64(b, ((int) l7) - 58128));
       Words.put64(b, ((int) l7) - 58824, Words.get64(b, ((int) l7) - 58136));
       Words.put64(b, ((int) l7) - 58832, Words.get64(b, ((int) l7) - 58144));
       Words.put64(b, ((int) l7) - 58840, Words.get64(b, ((int) l7) - 58152));
       Words.put64(b, ((int) l7) - 58848, Words.get64(b, ((int) l7) - 58160));
       Words.put64(b, ((int) l7) - 58856, Words.get64(b, ((int) l7) - 58168));
       Words.put64(b, ((int) l7) - 58864, Words.get64(b, ((int) l7) - 58176));
       Words.put64(b, ((int) l7) - 58912, Words.get64(b, ((int) l7) - 58224));
       Words.put64(b, ((int) l7) - 58904, Words.get64(b, ((int) l7) - 58216));
       Words.put64(b, ((int) l7) - 58896, Words.get64(b, ((int) l7) - 58208));
       Words.put64(b, ((int) l7) - 58888, Words.get64(b, ((int) l7) - 58200));
       Words.put64(b, ((int) l7) - 58880, Words.get64(b, ((int) l7) - 58192));
       Words.put64(b, ((int) l7) - 58872, Words.get64(b, ((int) l7) - 58184));
       break L4;
      }
      l21 = 98003L;
     }
     m.fill((int) (l7 + 912L), 0, (int) 128L);
     l18 = 0L;
     Words.put64(b, ((int) l7) - 58008, 0L);
     Words.put64(b, ((int) l7) - 58016, 0L);
     Words.put64(b, ((int) l7) - 58024, 0L);
     Words.put64(b, ((int) l7) - 58032, 0L);
     Words.put64(b, ((int) l7) - 58040, 0L);
     Words.put64(b, ((int) l7) - 58048, 0L);
     Words.put64(b, ((int) l7) - 58056, 0L);
     Words.put64(b, ((int) l7) - 58064, 0L);
     Words.put64(b, ((int) l7) - 58112, 0L);
     Words.put64(b, ((int) l7) - 58104, 0L);
     Words.put64(b, ((int) l7) - 58096, 0L);
     Words.put64(b, ((int) l7) - 58088, 0L);
     Words.put64(b, ((int) l7) - 58080, 0L);
     Words.put64(b, ((int) l7) - 58072, 0L);
     Core4.f119(m, l7 + 912L, l1, l2, l20, l19, l5, l6);
     final int x60 = f190_1(m, l1, l2, l3, l4, l5, l6, l7, l8, l9, l10, l11, l12, l13, l14, l15, l16, l17, l18, l19, l20, l21, l22, l23, l24, l25, l26, l27, l28, l29, l30, l31, l32, l33);
     l3 = m.kept[0];
     l4 = m.kept[1];
     l5 = (int) m.kept[2];
     l6 = (int) m.kept[3];
     l8 = m.kept[4];
     l9 = m.kept[5];
     l10 = m.kept[6];
     l11 = m.kept[7];
     l12 = m.kept[8];
     l13 = m.kept[9];
     l14 = m.kept[10];
     l15 = m.kept[11];
     l16 = m.kept[12];
     l17 = m.kept[13];
     l18 = m.kept[14];
     l22 = m.kept[15];
     l23 = m.kept[16];
     l24 = m.kept[17];
     l25 = m.kept[18];
     l26 = m.kept[19];
     l27 = m.kept[20];
     l28 = m.kept[21];
     l29 = m.kept[22];
     l30 = m.kept[23];
     l31 = (int) m.kept[24];
     l32 = (int) m.kept[25];
     l33 = (int) m.kept[26];
     switch (x60) {
     case 1: break L5;
     }
     Words.put64(b, ((int) l7) - 58464, Words.get64(b, ((int) l7) - 58008));
     Words.put64(b, ((int) l7) - 58472, Words.get64(b, ((int) l7) - 58016));
     Words.put64(b, ((int) l7) - 58480, Words.get64(b, ((int) l7) - 58024));
     Words.put64(b, ((int) l7) - 58488, Words.get64(b, ((int) l7) - 58032));
     Words.put64(b, ((int) l7) - 58496, Words.get64(b, ((int) l7) - 58040));
     Words.put64(b, ((int) l7) - 58504, Words.get64(b, ((int) l7) - 58048));
     Words.put64(b, ((int) l7) - 58512, Words.get64(b, ((int) l7) - 58056));
     Words.put64(b, ((int) l7) - 58520, Words.get64(b, ((int) l7) - 58064));
     Words.put64(b, ((int) l7) - 58568, Words.get64(b, ((int) l7) - 58112));
     Words.put64(b, ((int) l7) - 58560, Words.get64(b, ((int) l7) - 58104));
     Words.put64(b, ((int) l7) - 58552, Words.get64(b, ((int) l7) - 58096));
     Words.put64(b, ((int) l7) - 58544, Words.get64(b, ((int) l7) - 58088));
     Words.put64(b, ((int) l7) - 58536, Words.get64(b, ((int) l7) - 58080));
     Words.put64(b, ((int) l7) - 58528, Words.get64(b, ((int) l7) - 58072));
    }
    Words.put64(b, ((int) l7) - 58808, Words.get64(b, ((int) l7) - 58464));
    Words.put64(b, ((int) l7) - 58816, Words.get64(b, ((int) l7) - 58472));
    Words.put64(b, ((int) l7) - 58824, Words.get64(b, ((int) l7) - 58480));
    Words.put64(b, ((int) l7) - 58832, Words.get64(b, ((int) l7) - 58488));
    Words.put64(b, ((int) l7) - 58840, Words.get64(b, ((int) l7) - 58496));
    Words.put64(b, ((int) l7) - 58848, Words.get64(b, ((int) l7) - 58504));
    Words.put64(b, ((int) l7) - 58856, Words.get64(b, ((int) l7) - 58512));
    Words.put64(b, ((int) l7) - 58864, Words.get64(b, ((int) l7) - 58520));
    Words.put64(b, ((int) l7) - 58912, Words.get64(b, ((int) l7) - 58568));
    Words.put64(b, ((int) l7) - 58904, Words.get64(b, ((int) l7) - 58560));
    Words.put64(b, ((int) l7) - 58896, Words.get64(b, ((int) l7) - 58552));
    Words.put64(b, ((int) l7) - 58888, Words.get64(b, ((int) l7) - 58544));
    Words.put64(b, ((int) l7) - 58880, Words.get64(b, ((int) l7) - 58536));
    Words.put64(b, ((int) l7) - 58872, Words.get64(b, ((int) l7) - 58528));
    l2 = 0L;
   }
   l1 = l18;
  }
  Words.put64(b, ((int) l0) - 58912, l1);
  Words.put64(b, ((int) (l0 + 64L)) - 58912, l12);
  Words.put64(b, ((int) (l0 + 56L)) - 58912, l13);
  Words.put64(b, ((int) (l0 + 48L)) - 58912, l14);
  Words.put64(b, ((int) (l0 + 40L)) - 58912, l15);
  Words.put64(b, ((int) (l0 + 32L)) - 58912, l16);
  Words.put64(b, ((int) (l0 + 24L)) - 58912, l2);
  Words.put64(b, ((int) (l0 + 16L)) - 58912, l17);
  Words.put64(b, ((int) (l0 + 8L)) - 58912, l18);
  Words.put64(b, ((int) (l0 + 72L)) - 58912, Words.get64(b, ((int) l7) - 58864));
  Words.put64(b, ((int) (l0 + 80L)) - 58912, Words.get64(b, ((int) l7) - 58856));
  Words.put64(b, ((int) (l0 + 88L)) - 58912, Words.get64(b, ((int) l7) - 58848));
  Words.put64(b, ((int) (l0 + 96L)) - 58912, Words.get64(b, ((int) l7) - 58840));
  Words.put64(b, ((int) (l0 + 104L)) - 58912, Words.get64(b, ((int) l7) - 58832));
  Words.put64(b, ((int) (l0 + 112L)) - 58912, Words.get64(b, ((int) l7) - 58824));
  Words.put64(b, ((int) (l0 + 120L)) - 58912, Words.get64(b, ((int) l7) - 58816));
  Words.put64(b, ((int) (l0 + 128L)) - 58912, Words.get64(b, ((int) l7) - 58808));
  Words.put64(b, ((int) (l0 + 176L)) - 58912, l3);
  Words.put64(b, ((int) (l0 + 168L)) - 58912, l4);
  Words.put64(b, ((int) (l0 + 160L)) - 58912, l8);
  Words.put64(b, ((int) (l0 + 152L)) - 58912, l9);
  Words.put64(b, ((int) (l0 + 144L)) - 58912, l10);
  Words.put64(b, ((int) (l0 + 136L)) - 58912, l11);
  Words.put64(b, ((int) (l0 + 184L)) - 58912, Words.get64(b, ((int) l7) - 58912));
  Words.put64(b, ((int) (l0 + 192L)) - 58912, Words.get64(b, ((int) l7) - 58904));
  Words.put64(b, ((int) (l0 + 200L)) - 58912, Words.get64(b, ((int) l7) - 58896));
  Words.put64(b, ((int) (l0 + 208L)) - 58912, Words.get64(b, ((int) l7) - 58888));
  Words.put64(b, ((int) (l0 + 216L)) - 58912, Words.get64(b, ((int) l7) - 58880));
  Words.put64(b, ((int) (l0 + 224L)) - 58912, Words.get64(b, ((int) l7) - 58872));
  m.g0 = l7 + 1200L;
  return;
 }
 throw State.trap();
}

static int f191_1(State m, long l1, long l2, long l3, long l4, long l7, long l8, long l9, long l10, long l11, long l12, long l13, long l14, long l15, long l16, int l23, int l24, int l25, int l26) {
 final byte[] b = m.bytes;
 int exit = 0;
 PART: {
  L46: {
   L47: {
    if (f196(m, l11, l10) == 0) { break L47; }
    if (l24 != 47) { exit = 1; break PART; }
    Words.put64(b, ((int) l7) - 58280, 0L);
    Words.put64(b, ((int) l7) - 58288, 0L);
    Words.put64(b, ((int) l7) - 58296, 0L);
    f197(m, l7 + 616L, 87448L, 4L, l11, l10);
    if ((b[((int) l7) - 58296] & 0xff) == 1) { break L46; }
    f197(m, l7 + 616L, 87452L, 12L, l11, l10);
    if ((b[((int) l7) - 58296] & 0xff) != 1) { exit = 1; break PART; }
    break L46;
   }
   L48: {
    L49: {
     switch (l24 + -45) {
     case 0: break L48;
     case 2: break L46;
     default: break L49;
     }
    }
    Words.put64(b, ((int) l7) - 58248, l10);
    Words.put64(b, ((int) l7) - 58256, l11);
    Words.put64(b, ((int) l7) - 58264, l9);
    Words.put64(b, ((int) l7) - 58272, l14);
    Words.put32(b, ((int) l7) - 58276, 0);
    Words.put32(b, ((int) l7) - 58280, l24);
    Words.put64(b, ((int) l7) - 58288, l13);
    Words.put64(b, ((int) l7) - 58296, l3);
    if (f198(m, l1, l8, l7 + 616L) == 0) { exit = 1; break PART; }
    l12 = 4L;
    exit = 2; break PART;
   }
   L50: {
    if (f199(m, 1899, l3, l13) != 0) { break L50; }
    if (f199(m, 2099, l3, l13) == 0) { break L50; }
    L51: {
     L52: {
      if (l25 <= -1) { break L52; }
      l12 = 1L;
      break L51;
     }
     L53: {
      if (l25 + Integer.MIN_VALUE >= 2147483616) { break L53; }
      l12 = 2L;
      break L51;
     }
     l12 = (l25 + Integer.MIN_VALUE < 2147483632) ? 3L : 4L;
    }
    L54: {
     L55: {
      if (l9 == l12) { break L55; }
      L56: {
       L57: {
        if ((l23 = (int) b[((int) (l14 + l12)) - 58912]) <= -1) { break L57; }
        l16 = 1L;
        break L56;
       }
       L58: {
        if (l23 + Integer.MIN_VALUE >= 2147483616) { break L58; }
        l16 = 2L;
        break L56;
       }
       l16 = (l23 + Integer.MIN_VALUE < 2147483632) ? 3L : 4L;
      }
      if (l9 == (l16 + l12)) { break L54; }
     }
     L59: {
      L60: {
       if (l25 <= -1) { break L60; }
       l12 = 1L;
       break L59;
      }
      L61: {
       if (l25 + Integer.MIN_VALUE >= 2147483616) { break L61; }
       l12 = 2L;
       break L59;
      }
      l12 = (l25 + Integer.MIN_VALUE < 2147483632) ? 3L : 4L;
     }
     if (l9 == l12) { break L50; }
     L62: {
      L63: {
       if ((l25 = (int) b[((int) (l15 = l14 + l12)) - 58912]) <= -1) { break L63; }
       l16 = 1L;
       break L62;
      }
      L64: {
       if (l25 + Integer.MIN_VALUE >= 2147483616) { break L64; }
       l16 = 2L;
       break L62;
      }
      l16 = (l25 + Integer.MIN_VALUE < 2147483632) ? 3L : 4L;
     }
     if (l9 == (l12 = l16 + l12)) { break L50; }
     L65: {
      L66: {
       if ((l25 = (int) b[((int) (l15 = l15 + l16)) - 58912]) <= -1) { break L66; }
       l16 = 1L;
       break L65;
      }
      L67: {
       if (l25 + Integer.MIN_VALUE >= 2147483616) { break L67; }
       l16 = 2L;
       break L65;
      }
      l16 = (l25 + Integer.MIN_VALUE < 2147483632) ? 3L : 4L;
     }
     if (l9 == (l12 = l16 + l12)) { break L50; }
     L68: {
      L69: {
       if ((l25 = (int) b[((int) (l15 + l16)) - 58912]) <= -1) { break L69; }
       l16 = 1L;
       break L68;
      }
      L70: {
       if (l25 + Integer.MIN_VALUE >= 2147483616) { break L70; }
       l16 = 2L;
       break L68;
      }
      l16 = (l25 + Integer.MIN_VALUE < 2147483632) ? 3L : 4L;
     }
     if (l9 != (l16 + l12)) { break L50; }
    }
    Words.put64(b, ((int) l7) - 58120, 0L);
    Words.put64(b, ((int) l7) - 58128, 0L);
    Words.put64(b, ((int) l7) - 58136, 0L);
    f197(m, l7 + 776L, 87624L, 6L, l11, l10);
    l12 = 3L;
    if ((b[((int) l7) - 58136] & 0xff) == 1) { exit = 2; break PART; }
    Words.put64(b, ((int) l7) - 58120, 0L);
    Words.put64(b, ((int) l7) - 58128, 0L);
    Words.put64(b, ((int) l7) - 58136, 0L);
    f197(m, l7 + 776L, 87630L, 6L, l11, l10);
    if ((b[((int) l7) - 58136] & 0xff) == 1) { exit = 2; break PART; }
    Words.put64(b, ((int) l7) - 58120, 0L);
    Words.put64(b, ((int) l7) - 58128, 0L);
    Words.put64(b, ((int) l7) - 58136, 0L);
    f197(m, l7 + 776L, 87636L, 6L, l11, l10);
    if ((b[((int) l7) - 58136] & 0xff) == 1) { exit = 2; break PART; }
    Words.put64(b, ((int) l7) - 58120, 0L);
    Words.put64(b, ((int) l7) - 58128, 0L);
    Words.put64(b, ((int) l7) - 58136, 0L);
    f197(m, l7 + 776L, 87642L, 6L, l11, l10);
    if ((b[((int) l7) - 58136] & 0xff) == 1) { exit = 2; break PART; }
    Words.put64(b, ((int) l7) - 58120, 0L);
    Words.put64(b, ((int) l7) - 58128, 0L);
    Words.put64(b, ((int) l7) - 58136, 0L);
    f197(m, l7 + 776L, 87648L, 6L, l11, l10);
    if ((b[((int) l7) - 58136] & 0xff) == 1) { exit = 2; break PART; }
    Words.put64(b, ((int) l7) - 58120, 0L);
    Words.put64(b, ((int) l7) - 58128, 0L);
    Words.put64(b, ((int) l7) - 58136, 0L);
    f197(m, l7 + 776L, 87654L, 6L, l11, l10);
    if ((b[((int) l7) - 58136] & 0xff) == 1) { exit = 2; break PART; }
    Words.put64(b, ((int) l7) - 58120, 0L);
    Words.put64(b, ((int) l7) - 58128, 0L);
    Words.put64(b, ((int) l7) - 58136, 0L);
    f197(m, l7 + 776L, 87660L, 6L, l11, l10);
    if ((b[((int) l7) - 58136] & 0xff) == 1) { exit = 2; break PART; }
   }
   Words.put64(b, ((int) l7) - 58248, l10);
   Words.put64(b, ((int) l7) - 58256, l11);
   Words.put64(b, ((int) l7) - 58264, l9);
   Words.put64(b, ((int) l7) - 58272, l14);
   Words.put64(b, ((int) l7) - 58280, 45L);
   Words.put64(b, ((int) l7) - 58288, l13);
   Words.put64(b, ((int) l7) - 58296, l3);
   L71: {
    if (f198(m, l1, l8, l7 + 616L) == 0) { break L71; }
    l12 = 4L;
    exit = 2; break PART;
   }
   if (l2 == l4) { exit = 1; break PART; }
   if (((int) b[((int) ((l12 = l1 + l8) + -1L)) - 58912]) > -1) { exit = 1; break PART; }
   l16 = -2L;
   L72: {
    if ((b[((int) (l12 + -2L)) - 58912] & 0xff) + Integer.MIN_VALUE > -2147483457) { break L72; }
    l16 = ((b[((int) (l12 + -3L)) - 58912] & 0xff) + Integer.MIN_VALUE > -2147483457) ? -3L : -4L;
   }
   if ((l25 = (int) b[((int) (l12 = (l1 + l16) + l8)) - 58912]) > -1) { exit = 1; break PART; }
   if (l25 + Integer.MIN_VALUE < 2147483616) { exit = 1; break PART; }
   l23 = l25 & 255;
   l24 = (b[((int) l12) - 58911] & 0xff) & 63;
   l26 = (b[((int) l12) - 58910] & 0xff) & 63;
   L73: {
    L74: {
     if (l25 + Integer.MIN_VALUE > 2147483631) { break L74; }
     l25 = ((l24 << 6) | ((l23 << 12) & 61440)) | l26;
     break L73;
    }
    l25 = ((l26 << 6) | ((l24 << 12) | ((l23 << 18) & 1835008))) | ((b[((int) l12) - 58909] & 0xff) & 63);
   }
   L75: {
    if (l25 == 22270) { break L75; }
    if (l25 == 34920) { break L75; }
    if (l25 != 22294) { exit = 1; break PART; }
   }
   Words.put64(b, ((int) l7) - 58400, l10);
   Words.put64(b, ((int) l7) - 58408, l11);
   Words.put64(b, ((int) l7) - 58416, l9);
   Words.put64(b, ((int) l7) - 58424, l14);
   Words.put64(b, ((int) l7) - 58432, 45L);
   Words.put64(b, ((int) l7) - 58440, l13);
   Words.put64(b, ((int) l7) - 58448, l3);
   if (f200(m, l7 + 464L) == 0) { exit = 1; break PART; }
   l12 = 5L;
   exit = 2; break PART;
  }
 }
 m.kept[0] = l12;
 m.kept[1] = l15;
 m.kept[2] = l16;
 m.kept[3] = l23;
 m.kept[4] = l24;
 m.kept[5] = l25;
 m.kept[6] = l26;
 return exit;
}

static int f191_2(State m, long l1, long l2, long l3, long l4, long l7, long l8, long l9, long l10, long l11, long l12, long l13, long l14, long l15, long l16, int l23, int l24, int l25, int l26, int l27, int l28) {
 final byte[] b = m.bytes;
 int exit = 0;
 PART: {
  L78: {
   if ((b[((int) l7) - 58296] & 0xff) == 1) { break L78; }
   f197(m, l7 + 616L, 87452L, 12L, l11, l10);
   if ((b[((int) l7) - 58296] & 0xff) == 1) { break L78; }
   f201(m, l7 + 16L, l14, l9);
   l12 = Words.get64(b, ((int) l7) - 58888);
   l25 = b[((int) l7) - 58896] & 0xff;
   f201(m, l7, l3, l13);
   if (((l25 & (b[((int) l7) - 58912] & 0xff)) & 255) == 0) { exit = 1; break PART; }
   if (l12 + Long.MIN_VALUE > -9223372036854775798L) { exit = 1; break PART; }
   if ((l16 = Words.get64(b, ((int) l7) - 58904)) == 0L) { exit = 1; break PART; }
   if (l16 + Long.MIN_VALUE >= l12 + Long.MIN_VALUE) { exit = 1; break PART; }
   L79: {
    if ((l25 = (l2 == l4) ? 1 : 0) != 0) { break L79; }
    if (((int) b[((int) ((l12 = l1 + l8) + -1L)) - 58912]) > -1) { break L79; }
    l16 = -2L;
    L80: {
     if ((b[((int) (l12 + -2L)) - 58912] & 0xff) + Integer.MIN_VALUE > -2147483457) { break L80; }
     l16 = ((b[((int) (l12 + -3L)) - 58912] & 0xff) + Integer.MIN_VALUE > -2147483457) ? -3L : -4L;
    }
    if ((l23 = (int) b[((int) (l12 = (l1 + l16) + l8)) - 58912]) > -1) { break L79; }
    if (l23 + Integer.MIN_VALUE < 2147483616) { break L79; }
    l24 = l23 & 255;
    l27 = (b[((int) l12) - 58911] & 0xff) & 63;
    l28 = (b[((int) l12) - 58910] & 0xff) & 63;
    L81: {
     L82: {
      if (l23 + Integer.MIN_VALUE > 2147483631) { break L82; }
      l23 = ((l27 << 6) | ((l24 << 12) & 61440)) | l28;
      break L81;
     }
     l23 = ((l28 << 6) | ((l27 << 12) | ((l24 << 18) & 1835008))) | ((b[((int) l12) - 58909] & 0xff) & 63);
    }
    if (l23 == 31532) { exit = 1; break PART; }
   }
   L83: {
    if (l26 != 0) { break L83; }
    if ((l23 = (int) b[((int) l11) - 58912]) > -1) { break L83; }
    if (l23 + Integer.MIN_VALUE < 2147483616) { break L83; }
    l24 = l23 & 255;
    l26 = (b[((int) l11) - 58911] & 0xff) & 63;
    l27 = (b[((int) l11) - 58910] & 0xff) & 63;
    L84: {
     L85: {
      if (l23 + Integer.MIN_VALUE > 2147483631) { break L85; }
      l23 = ((l26 << 6) | ((l24 << 12) & 61440)) | l27;
      break L84;
     }
     l23 = ((l27 << 6) | ((l26 << 12) | ((l24 << 18) & 1835008))) | ((b[((int) l11) - 58909] & 0xff) & 63);
    }
    l12 = 2L;
    L86: {
     if (l23 > 24037) { break L86; }
     L87: {
      if (l23 > 21241) { break L87; }
      if (l23 == 20010) { exit = 2; break PART; }
      if (l23 == 20197) { exit = 2; break PART; }
      if (l23 != 20491) { break L83; }
      exit = 2; break PART;
     }
     L88: {
      switch (l23 + -21242) {
      case 0: case 11: exit = 2; break PART;
      case 1: case 2: case 3: case 4: case 5: case 6: case 7: case 8: case 9: case 10: break L83;
      default: break L88;
      }
     }
     if (l23 != 22810) { break L83; }
     exit = 2; break PART;
    }
    L89: {
     if (l23 > 30339) { break L89; }
     if (l23 == 24038) { exit = 2; break PART; }
     if (l23 == 26479) { exit = 2; break PART; }
     if (l23 != 29255) { break L83; }
     exit = 2; break PART;
    }
    if (l23 == 30340) { exit = 2; break PART; }
    if (l23 == 31890) { exit = 2; break PART; }
    if (l23 == 34955) { exit = 2; break PART; }
   }
   if (l25 != 0) { exit = 1; break PART; }
   if (((int) b[((int) ((l16 = l1 + l8) + -1L)) - 58912]) > -1) { exit = 1; break PART; }
   l12 = -2L;
   L90: {
    if ((l25 = b[((int) (l16 + -2L)) - 58912] & 0xff) + Integer.MIN_VALUE > -2147483457) { break L90; }
    l12 = ((b[((int) (l16 + -3L)) - 58912] & 0xff) + Integer.MIN_VALUE > -2147483457) ? -3L : -4L;
   }
   L91: {
    if ((l23 = (int) b[((int) (l12 = (l1 + l12) + l8)) - 58912]) > -1) { break L91; }
    if (l23 + Integer.MIN_VALUE < 2147483616) { break L91; }
    l24 = l23 & 255;
    l26 = (b[((int) l12) - 58911] & 0xff) & 63;
    l27 = (b[((int) l12) - 58910] & 0xff) & 63;
    L92: {
     L93: {
      if (l23 + Integer.MIN_VALUE > 2147483631) { break L93; }
      l23 = ((l26 << 6) | ((l24 << 12) & 61440)) | l27;
      break L92;
     }
     l23 = ((l27 << 6) | ((l26 << 12) | ((l24 << 18) & 1835008))) | ((b[((int) l12) - 58909] & 0xff) & 63);
    }
    l12 = 2L;
    L94: {
     if (l23 > 36228) { break L94; }
     L95: {
      if (l23 > 32003) { break L95; }
      if (l23 == 20013) { exit = 2; break PART; }
      if (l23 != 26377) { break L91; }
      exit = 2; break PART;
     }
     if (l23 == 32004) { exit = 2; break PART; }
     if (l23 != 32422) { break L91; }
     exit = 2; break PART;
    }
    L96: {
     switch (l23 + -36807) {
     case 0: case 10: exit = 2; break PART;
     case 1: case 2: case 3: case 4: case 5: case 6: case 7: case 8: case 9: break L91;
     default: break L96;
     }
    }
    if (l23 == 36229) { exit = 2; break PART; }
    if (l23 == 36942) { exit = 2; break PART; }
   }
   l12 = -2L;
   L97: {
    if (l25 + Integer.MIN_VALUE > -2147483457) { break L97; }
    l12 = ((b[((int) (l16 + -3L)) - 58912] & 0xff) + Integer.MIN_VALUE > -2147483457) ? -3L : -4L;
   }
   if ((l23 = (int) b[((int) (l12 = (l1 + l12) + l8)) - 58912]) > -1) { exit = 1; break PART; }
   if (l23 + Integer.MIN_VALUE < 2147483616) { exit = 1; break PART; }
   l24 = l23 & 255;
   l26 = (b[((int) l12) - 58911] & 0xff) & 63;
   l27 = (b[((int) l12) - 58910] & 0xff) & 63;
   L98: {
    L99: {
     if (l23 + Integer.MIN_VALUE > 2147483631) { break L99; }
     l23 = ((l26 << 6) | ((l24 << 12) & 61440)) | l27;
     break L98;
    }
    l23 = ((l27 << 6) | ((l26 << 12) | ((l24 << 18) & 1835008))) | ((b[((int) l12) - 58909] & 0xff) & 63);
   }
   L100: {
    if (l23 == 36275) { break L100; }
    if (l23 != 21040) { exit = 1; break PART; }
   }
   l12 = -2L;
   L101: {
    if (l25 + Integer.MIN_VALUE > -2147483457) { break L101; }
    l12 = ((b[((int) (l16 + -3L)) - 58912] & 0xff) + Integer.MIN_VALUE > -2147483457) ? -3L : -4L;
   }
   if ((l12 = l12 + l8) == 0L) { exit = 1; break PART; }
   if (((int) b[((int) ((l16 = l1 + l12) + -1L)) - 58912]) > -1) { exit = 1; break PART; }
   l15 = -2L;
   L102: {
    if ((b[((int) (l16 + -2L)) - 58912] & 0xff) + Integer.MIN_VALUE > -2147483457) { break L102; }
    l15 = ((b[((int) (l16 + -3L)) - 58912] & 0xff) + Integer.MIN_VALUE > -2147483457) ? -3L : -4L;
   }
   if ((l25 = (int) b[((int) (l12 = (l1 + l15) + l12)) - 58912]) > -1) { exit = 1; break PART; }
   if (l25 + Integer.MIN_VALUE < 2147483616) { exit = 1; break PART; }
   l23 = l25 & 255;
   l24 = (b[((int) l12) - 58911] & 0xff) & 63;
   l26 = (b[((int) l12) - 58910] & 0xff) & 63;
   L103: {
    L104: {
     if (l25 + Integer.MIN_VALUE > 2147483631) { break L104; }
     l25 = ((l24 << 6) | ((l23 << 12) & 61440)) | l26;
     break L103;
    }
    l25 = ((l26 << 6) | ((l24 << 12) | ((l23 << 18) & 1835008))) | ((b[((int) l12) - 58909] & 0xff) & 63);
   }
   if (l25 != 19981) { exit = 1; break PART; }
   l12 = 2L;
   exit = 2; break PART;
  }
 }
 m.kept[0] = l12;
 m.kept[1] = l15;
 m.kept[2] = l16;
 m.kept[3] = l23;
 m.kept[4] = l24;
 m.kept[5] = l25;
 m.kept[6] = l26;
 m.kept[7] = l27;
 m.kept[8] = l28;
 return exit;
}

static int f191_3(State m, long l1, long l2, long l3, long l4, long l7, long l8, long l9, long l10, long l11, long l12, long l13, long l14, long l15, long l16, long l17, long l18, long l19, long l20, long l21, long l22, int l23, int l24, int l25, int l26, int l27) {
 final byte[] b = m.bytes;
 int exit = 0;
 PART: {
  L113: {
   if ((l22 = b[((int) l7) - 58672] & 0xffL) != 1L) { break L113; }
   l15 = Words.get64(b, ((int) l7) - 58552);
   l10 = Words.get64(b, ((int) l7) - 58560);
   l16 = Words.get64(b, ((int) l7) - 58568);
   l19 = Words.get64(b, ((int) l7) - 58616);
   l18 = Words.get64(b, ((int) l7) - 58624);
   l17 = Words.get64(b, ((int) l7) - 58632);
   l13 = Words.get64(b, ((int) l7) - 58640);
   l2 = Words.get64(b, ((int) l7) - 58648);
   l14 = Words.get64(b, ((int) l7) - 58656);
   l27 = b[((int) l7) - 58664] & 0xff;
   Words.put64(b, ((int) l7) - 58336, Words.get64(b, ((int) l7) - 58608));
   Words.put64(b, ((int) l7) - 58328, Words.get64(b, ((int) l7) - 58600));
   Words.put64(b, ((int) l7) - 58320, Words.get64(b, ((int) l7) - 58592));
   Words.put64(b, ((int) l7) - 58312, Words.get64(b, ((int) l7) - 58584));
   Words.put64(b, ((int) l7) - 58304, Words.get64(b, ((int) l7) - 58576));
   Words.put64(b, ((int) l7) - 58376, 0L);
   Words.put64(b, ((int) l7) - 58368, 0L);
   Words.put64(b, ((int) l7) - 58360, 0L);
   Words.put64(b, ((int) l7) - 58352, 0L);
   Words.put64(b, ((int) l7) - 58344, 0L);
   Words.put64(b, ((int) l7) - 58448, 0L);
   Words.put64(b, ((int) l7) - 58440, 0L);
   Words.put64(b, ((int) l7) - 58432, 0L);
   Words.put64(b, ((int) l7) - 58424, 0L);
   Words.put64(b, ((int) l7) - 58416, 0L);
   Words.put64(b, ((int) l7) - 58408, 0L);
   Words.put64(b, ((int) l7) - 58384, 0L);
   Words.put64(b, ((int) l7) - 58392, 0L);
   l11 = l10;
   L114: {
    L115: {
     L116: {
      L117: {
       switch (l27) {
       case 1: break L116;
       case 2: break L114;
       case 3: break L115;
       default: break L117;
       }
      }
      l11 = l13;
      break L114;
     }
     l11 = l15;
     break L114;
    }
    l11 = l2;
   }
   l21 = l7 + 304L;
   l20 = l27 & 0xffffffffL;
   l12 = l4 - l11;
   l11 = l3;
   L118: {
    L119: {
     L120: while (true) {
      if (l12 == 0L) { break L119; }
      l25 = (l23 = (int) b[((int) l11) - 58912]) & 255;
      l9 = 1L;
      L121: {
       if (l23 > -1) { break L121; }
       l24 = (b[((int) l11) - 58911] & 0xff) & 63;
       L122: {
        if (l23 + Integer.MIN_VALUE > 2147483615) { break L122; }
        l25 = ((l25 << 6) & 1984) | l24;
        l9 = 2L;
        break L121;
       }
       l26 = (b[((int) l11) - 58910] & 0xff) & 63;
       L123: {
        if (l23 + Integer.MIN_VALUE > 2147483631) { break L123; }
        l25 = ((l24 << 6) | ((l25 << 12) & 61440)) | l26;
        l9 = 3L;
        break L121;
       }
       l25 = ((l26 << 6) | ((l24 << 12) | ((l25 << 18) & 1835008))) | ((b[((int) l11) - 58909] & 0xff) & 63);
       l9 = 4L;
      }
      L124: {
       if ((l25 + -48) + Integer.MIN_VALUE < -2147483638) { break L124; }
       l12 = l12 - l9;
       l11 = l11 + l9;
       if ((l25 + -65296) + Integer.MIN_VALUE > -2147483639) { continue L120; }
      }
      break L120;
     }
     if (f203(m, l1, l8) != 0) { break L119; }
     Words.put64(b, ((int) l7) - 58248, l19);
     Words.put64(b, ((int) l7) - 58256, l18);
     Words.put64(b, ((int) l7) - 58264, l17);
     Words.put64(b, ((int) l7) - 58272, l13);
     Words.put64(b, ((int) l7) - 58280, l2);
     Words.put64(b, ((int) l7) - 58288, l14);
     Words.put64(b, ((int) l7) - 58296, l20);
     Words.put64(b, ((int) l7) - 58184, l15);
     Words.put64(b, ((int) l7) - 58192, l10);
     Words.put64(b, ((int) l7) - 58200, l16);
     Words.put64(b, ((int) l7) - 58240, Words.get64(b, ((int) l21) - 58912));
     Words.put64(b, ((int) l7) - 58232, Words.get64(b, ((int) l21) - 58904));
     Words.put64(b, ((int) l7) - 58224, Words.get64(b, ((int) l21) - 58896));
     Words.put64(b, ((int) l7) - 58216, Words.get64(b, ((int) l21) - 58888));
     Words.put64(b, ((int) l7) - 58208, Words.get64(b, ((int) l21) - 58880));
     if (f192(m, l1, l8, l3, l4, l7 + 616L) == 0) { break L119; }
     Words.put64(b, ((int) l7) - 58248, 0L);
     Words.put64(b, ((int) l7) - 58256, 0L);
     Words.put64(b, ((int) l7) - 58264, 0L);
     Words.put64(b, ((int) l7) - 58272, 0L);
     Words.put64(b, ((int) l7) - 58280, 0L);
     Words.put64(b, ((int) l7) - 58288, 0L);
     Words.put64(b, ((int) l7) - 58296, 0L);
     L125: {
      L126: {
       if (l27 != 0) { break L126; }
       l25 = 8384639 >>> ((((int) l14) >>> 8) & 255);
       l23 = 0;
       l11 = l2;
       l9 = l13;
       break L125;
      }
      Words.put64(b, ((int) l7) - 58136, 0L);
      Words.put64(b, ((int) l7) - 58128, 0L);
      Words.put64(b, ((int) l7) - 58120, 0L);
      Words.put64(b, ((int) l7) - 58112, 0L);
      Words.put64(b, ((int) l7) - 58104, 0L);
      Words.put64(b, ((int) l7) - 58176, 0L);
      Words.put64(b, ((int) l7) - 58168, 0L);
      Words.put64(b, ((int) l7) - 58160, 0L);
      Words.put64(b, ((int) l7) - 58152, 0L);
      Words.put64(b, ((int) l7) - 58144, 0L);
      L127: {
       L128: {
        L129: {
         L130: {
          switch (l27 + -1) {
          case 1: break L129;
          case 2: break L128;
          default: break L130;
          }
         }
         l25 = 0;
         l23 = 1;
         l11 = l10;
         l9 = l15;
         break L125;
        }
        f193(m, l7 + 776L, l16, l10);
        l25 = b[((int) l7) - 58136] & 0xff;
        Words.put64(b, ((int) l7) - 58104, 0L);
        Words.put64(b, ((int) l7) - 58112, 0L);
        Words.put64(b, ((int) l7) - 58120, 0L);
        Words.put64(b, ((int) l7) - 58128, 0L);
        Words.put64(b, ((int) l7) - 58136, 0L);
        f193(m, l7 + 776L, l16, l10);
        final long t131 = Words.get64(b, ((int) l7) - 58104);
        final long t132 = l10;
        final int t133 = l23 = ((b[((int) l7) - 58136] & 0xff) == 1) ? 1 : 0;
        l9 = t133 != 0 ? t131 : t132;
        final long t134 = Words.get64(b, ((int) l7) - 58112);
        final long t135 = l16;
        final int t136 = l23;
        l11 = t136 != 0 ? t134 : t135;
        l23 = (l25 == 1) ? 1 : 0;
        break L127;
       }
       f193(m, l7 + 736L, l14, l2);
       l25 = b[((int) l7) - 58176] & 0xff;
       Words.put64(b, ((int) l7) - 58104, 0L);
       Words.put64(b, ((int) l7) - 58112, 0L);
       Words.put64(b, ((int) l7) - 58120, 0L);
       Words.put64(b, ((int) l7) - 58128, 0L);
       Words.put64(b, ((int) l7) - 58136, 0L);
       f193(m, l7 + 776L, l14, l2);
       final long t137 = Words.get64(b, ((int) l7) - 58104);
       final long t138 = l2;
       final int t139 = l23 = ((b[((int) l7) - 58136] & 0xff) == 1) ? 1 : 0;
       l9 = t139 != 0 ? t137 : t138;
       final long t140 = Words.get64(b, ((int) l7) - 58112);
       final long t141 = l14;
       final int t142 = l23;
       l11 = t142 != 0 ? t140 : t141;
       l23 = (l25 == 1) ? 1 : 0;
      }
      l25 = 0;
     }
     f194(m, l7 + 616L, l25 & 1, l23, l11, l9);
     Words.put64(b, ((int) l7) - 58376, Words.get64(b, ((int) l7) - 58336));
     Words.put64(b, ((int) l7) - 58368, Words.get64(b, ((int) l7) - 58328));
     Words.put64(b, ((int) l7) - 58360, Words.get64(b, ((int) l7) - 58320));
     Words.put64(b, ((int) l7) - 58352, Words.get64(b, ((int) l7) - 58312));
     Words.put64(b, ((int) l7) - 58344, Words.get64(b, ((int) l7) - 58304));
     Words.put64(b, ((int) l7) - 58448, Words.get64(b, ((int) l7) - 58288));
     Words.put64(b, ((int) l7) - 58440, Words.get64(b, ((int) l7) - 58280));
     Words.put64(b, ((int) l7) - 58432, Words.get64(b, ((int) l7) - 58272));
     Words.put64(b, ((int) l7) - 58424, Words.get64(b, ((int) l7) - 58264));
     Words.put64(b, ((int) l7) - 58416, Words.get64(b, ((int) l7) - 58256));
     Words.put64(b, ((int) l7) - 58408, Words.get64(b, ((int) l7) - 58248));
     l12 = b[((int) l7) - 58296] & 0xffL;
     l21 = 0L;
     Words.put64(b, ((int) l7) - 58384, 0L);
     Words.put64(b, ((int) l7) - 58392, 0L);
     l9 = 83372L;
     l11 = 2L;
     break L118;
    }
    L143: {
     L144: {
      L145: {
       L146: {
        switch (l27) {
        case 1: break L145;
        case 2: break L143;
        case 3: break L144;
        default: break L146;
        }
       }
       l16 = l2;
       l10 = l13;
       break L143;
      }
      l16 = l10;
      l10 = l15;
      break L143;
     }
     l16 = l14;
     l10 = l2;
    }
    l21 = 2L;
    l17 = 0L;
    l18 = 0L;
    l19 = 0L;
    l11 = l16;
    l20 = l10;
    l14 = 0L;
    l2 = 0L;
    l13 = 0L;
    l16 = 0L;
    l10 = 0L;
    l15 = 0L;
    l9 = 0L;
    l12 = 0L;
   }
   Words.put64(b, ((int) l7) - 58784, Words.get64(b, ((int) l7) - 58344));
   Words.put64(b, ((int) l7) - 58792, Words.get64(b, ((int) l7) - 58352));
   Words.put64(b, ((int) l7) - 58800, Words.get64(b, ((int) l7) - 58360));
   Words.put64(b, ((int) l7) - 58808, Words.get64(b, ((int) l7) - 58368));
   Words.put64(b, ((int) l7) - 58816, Words.get64(b, ((int) l7) - 58376));
   Words.put64(b, ((int) l7) - 58864, Words.get64(b, ((int) l7) - 58448));
   Words.put64(b, ((int) l7) - 58856, Words.get64(b, ((int) l7) - 58440));
   Words.put64(b, ((int) l7) - 58848, Words.get64(b, ((int) l7) - 58432));
   Words.put64(b, ((int) l7) - 58840, Words.get64(b, ((int) l7) - 58424));
   Words.put64(b, ((int) l7) - 58832, Words.get64(b, ((int) l7) - 58416));
   Words.put64(b, ((int) l7) - 58824, Words.get64(b, ((int) l7) - 58408));
   Words.put64(b, ((int) l7) - 58872, Words.get64(b, ((int) l7) - 58384));
   Words.put64(b, ((int) l7) - 58880, Words.get64(b, ((int) l7) - 58392));
   Words.put64(b, ((int) l7) - 58680, Words.get64(b, ((int) l7) - 58784));
   Words.put64(b, ((int) l7) - 58688, Words.get64(b, ((int) l7) - 58792));
   Words.put64(b, ((int) l7) - 58696, Words.get64(b, ((int) l7) - 58800));
   Words.put64(b, ((int) l7) - 58704, Words.get64(b, ((int) l7) - 58808));
   Words.put64(b, ((int) l7) - 58712, Words.get64(b, ((int) l7) - 58816));
   Words.put64(b, ((int) l7) - 58720, Words.get64(b, ((int) l7) - 58824));
   Words.put64(b, ((int) l7) - 58728, Words.get64(b, ((int) l7) - 58832));
   Words.put64(b, ((int) l7) - 58736, Words.get64(b, ((int) l7) - 58840));
   Words.put64(b, ((int) l7) - 58744, Words.get64(b, ((int) l7) - 58848));
   Words.put64(b, ((int) l7) - 58752, Words.get64(b, ((int) l7) - 58856));
   Words.put64(b, ((int) l7) - 58760, Words.get64(b, ((int) l7) - 58864));
   Words.put64(b, ((int) l7) - 58768, Words.get64(b, ((int) l7) - 58872));
   Words.put64(b, ((int) l7) - 58776, Words.get64(b, ((int) l7) - 58880));
  }
 }
 m.kept[0] = l2;
 m.kept[1] = l9;
 m.kept[2] = l10;
 m.kept[3] = l11;
 m.kept[4] = l12;
 m.kept[5] = l13;
 m.kept[6] = l14;
 m.kept[7] = l15;
 m.kept[8] = l16;
 m.kept[9] = l17;
 m.kept[10] = l18;
 m.kept[11] = l19;
 m.kept[12] = l20;
 m.kept[13] = l21;
 m.kept[14] = l22;
 m.kept[15] = l23;
 m.kept[16] = l24;
 m.kept[17] = l25;
 m.kept[18] = l26;
 m.kept[19] = l27;
 return exit;
}

static void f191(State m, long l0, long l1, long l2, long l3, long l4, int l5, int l6) {
 final byte[] b = m.bytes;
 long l7 = 0;
 long l8 = 0;
 long l9 = 0;
 long l10 = 0;
 long l11 = 0;
 long l12 = 0;
 long l13 = 0;
 long l14 = 0;
 long l15 = 0;
 long l16 = 0;
 long l17 = 0;
 long l18 = 0;
 long l19 = 0;
 long l20 = 0;
 long l21 = 0;
 long l22 = 0;
 int l23 = 0;
 int l24 = 0;
 int l25 = 0;
 int l26 = 0;
 int l27 = 0;
 int l28 = 0;
 m.g0 = l7 = m.g0 - 816L;
 L1: {
  L2: {
   L3: {
    L4: {
     L5: {
      if ((l7 = l7) < 16L) { break L5; }
      Words.put64(b, ((int) l7) - 58456, 0L);
      Words.put64(b, ((int) l7) - 58464, 0L);
      Words.put64(b, ((int) l7) - 58472, 0L);
      Words.put64(b, ((int) l7) - 58480, 0L);
      Words.put64(b, ((int) l7) - 58488, 0L);
      Words.put64(b, ((int) l7) - 58496, 0L);
      Words.put64(b, ((int) l7) - 58544, 0L);
      Words.put64(b, ((int) l7) - 58536, 0L);
      Words.put64(b, ((int) l7) - 58528, 0L);
      Words.put64(b, ((int) l7) - 58520, 0L);
      Words.put64(b, ((int) l7) - 58512, 0L);
      Words.put64(b, ((int) l7) - 58504, 0L);
      m.fill((int) (l7 + 240L), 0, (int) 128L);
      Words.put64(b, ((int) l7) - 58680, 0L);
      Words.put64(b, ((int) l7) - 58688, 0L);
      Words.put64(b, ((int) l7) - 58696, 0L);
      Words.put64(b, ((int) l7) - 58704, 0L);
      Words.put64(b, ((int) l7) - 58712, 0L);
      Words.put64(b, ((int) l7) - 58760, 0L);
      Words.put64(b, ((int) l7) - 58752, 0L);
      Words.put64(b, ((int) l7) - 58744, 0L);
      Words.put64(b, ((int) l7) - 58736, 0L);
      Words.put64(b, ((int) l7) - 58728, 0L);
      Words.put64(b, ((int) l7) - 58720, 0L);
      Words.put64(b, ((int) l7) - 58776, 0L);
      Words.put64(b, ((int) l7) - 58768, 0L);
      Words.put64(b, ((int) l7) - 58816, 0L);
      Words.put64(b, ((int) l7) - 58808, 0L);
      Words.put64(b, ((int) l7) - 58800, 0L);
      Words.put64(b, ((int) l7) - 58792, 0L);
      Words.put64(b, ((int) l7) - 58784, 0L);
      Words.put64(b, ((int) l7) - 58824, 0L);
      Words.put64(b, ((int) l7) - 58832, 0L);
      Words.put64(b, ((int) l7) - 58840, 0L);
      Words.put64(b, ((int) l7) - 58848, 0L);
      Words.put64(b, ((int) l7) - 58856, 0L);
      Words.put64(b, ((int) l7) - 58864, 0L);
      Words.put64(b, ((int) l7) - 58872, 0L);
      Words.put64(b, ((int) l7) - 58880, 0L);
      l8 = l2 - l4;
      l9 = l3;
      l10 = l4;
      L6: while (true) {
       l11 = l9;
       if ((l12 = l10) == 0L) { break L2; }
       l9 = 1L;
       l25 = l24 = (l23 = (int) b[((int) l11) - 58912]) & 255;
       L7: {
        if (l23 > -1) { break L7; }
        l25 = (b[((int) l11) - 58911] & 0xff) & 63;
        L8: {
         if (l23 + Integer.MIN_VALUE > 2147483615) { break L8; }
         l25 = ((l24 << 6) & 1984) | l25;
         l9 = 2L;
         break L7;
        }
        l26 = (b[((int) l11) - 58910] & 0xff) & 63;
        L9: {
         if (l23 + Integer.MIN_VALUE > 2147483631) { break L9; }
         l25 = ((l25 << 6) | ((l24 << 12) & 61440)) | l26;
         l9 = 3L;
         break L7;
        }
        l25 = ((l26 << 6) | ((l25 << 12) | ((l24 << 18) & 1835008))) | ((b[((int) l11) - 58909] & 0xff) & 63);
        l9 = 4L;
       }
       l10 = l12 - l9;
       l9 = l11 + l9;
       if ((l25 + -48) + Integer.MIN_VALUE < -2147483638) { continue L6; }
       if ((l25 + -65296) + Integer.MIN_VALUE < -2147483638) { continue L6; }
       break L6;
      }
      l10 = 1L;
      L10: {
       if (l23 > -1) { break L10; }
       l25 = (b[((int) l11) - 58911] & 0xff) & 63;
       L11: {
        if (l23 + Integer.MIN_VALUE > 2147483615) { break L11; }
        l24 = ((l24 << 6) & 1984) | l25;
        l10 = 2L;
        break L10;
       }
       l26 = (b[((int) l11) - 58910] & 0xff) & 63;
       L12: {
        if (l23 + Integer.MIN_VALUE > 2147483631) { break L12; }
        l24 = ((l25 << 6) | ((l24 << 12) & 61440)) | l26;
        l10 = 3L;
        break L10;
       }
       l24 = ((l26 << 6) | ((l25 << 12) | ((l24 << 18) & 1835008))) | ((b[((int) l11) - 58909] & 0xff) & 63);
       l10 = 4L;
      }
      l13 = l4 - l12;
      l9 = l14 = l11 + l10;
      l16 = l15 = l12 - l10;
      L13: {
       L14: while (true) {
        l11 = l9;
        if ((l26 = ((l10 = l16) == 0L) ? 1 : 0) != 0) { break L13; }
        l25 = (l23 = (int) b[((int) l11) - 58912]) & 255;
        l9 = 1L;
        L15: {
         if (l23 > -1) { break L15; }
         l27 = (b[((int) l11) - 58911] & 0xff) & 63;
         L16: {
          if (l23 + Integer.MIN_VALUE > 2147483615) { break L16; }
          l25 = ((l25 << 6) & 1984) | l27;
          l9 = 2L;
          break L15;
         }
         l28 = (b[((int) l11) - 58910] & 0xff) & 63;
         L17: {
          if (l23 + Integer.MIN_VALUE > 2147483631) { break L17; }
          l25 = ((l27 << 6) | ((l25 << 12) & 61440)) | l28;
          l9 = 3L;
          break L15;
         }
         l25 = ((l28 << 6) | ((l27 << 12) | ((l25 << 18) & 1835008))) | ((b[((int) l11) - 58909] & 0xff) & 63);
         l9 = 4L;
        }
        l16 = l10 - l9;
        l9 = l11 + l9;
        if ((l25 + -48) + Integer.MIN_VALUE < -2147483638) { continue L14; }
        if ((l25 + -65296) + Integer.MIN_VALUE < -2147483638) { continue L14; }
        break L14;
       }
      }
      l25 = 1;
      if (l24 + Integer.MIN_VALUE > -2147483590) { break L4; }
      if (((1L << (l24 & 0xffffffffL)) & 288406298012155904L) == 0L) { break L4; }
      break L3;
     }
     throw State.trap();
    }
    if (l24 == 65306) { break L3; }
    l25 = 0;
   }
   if (l4 == l12) { break L2; }
   if (l25 == 0) { break L2; }
   L18: {
    L19: {
     if ((l25 = (int) b[((int) l3) - 58912]) <= -1) { break L19; }
     l9 = 1L;
     break L18;
    }
    L20: {
     if (l25 + Integer.MIN_VALUE >= 2147483616) { break L20; }
     l9 = 2L;
     break L18;
    }
    l9 = (l25 + Integer.MIN_VALUE < 2147483632) ? 3L : 4L;
   }
   L21: {
    L22: {
     if (l13 == l9) { break L22; }
     L23: {
      L24: {
       if ((l25 = (int) b[((int) (l16 = l3 + l9)) - 58912]) <= -1) { break L24; }
       l12 = 1L;
       break L23;
      }
      L25: {
       if (l25 + Integer.MIN_VALUE >= 2147483616) { break L25; }
       l12 = 2L;
       break L23;
      }
      l12 = (l25 + Integer.MIN_VALUE < 2147483632) ? 3L : 4L;
     }
     if (l13 == (l9 = l12 + l9)) { break L22; }
     L26: {
      L27: {
       if ((l25 = (int) b[((int) (l16 = l16 + l12)) - 58912]) <= -1) { break L27; }
       l12 = 1L;
       break L26;
      }
      L28: {
       if (l25 + Integer.MIN_VALUE >= 2147483616) { break L28; }
       l12 = 2L;
       break L26;
      }
      l12 = (l25 + Integer.MIN_VALUE < 2147483632) ? 3L : 4L;
     }
     if (l13 == (l9 = l12 + l9)) { break L22; }
     L29: {
      L30: {
       if ((l25 = (int) b[((int) (l16 + l12)) - 58912]) <= -1) { break L30; }
       l12 = 1L;
       break L29;
      }
      L31: {
       if (l25 + Integer.MIN_VALUE >= 2147483616) { break L31; }
       l12 = 2L;
       break L29;
      }
      l12 = (l25 + Integer.MIN_VALUE < 2147483632) ? 3L : 4L;
     }
     if (l15 == l10) { break L2; }
     if (l13 == (l12 + l9)) { break L21; }
     break L2;
    }
    if (l15 == l10) { break L2; }
   }
   l9 = l15 - l10;
   L32: {
    L33: {
     if ((l25 = (int) b[((int) l14) - 58912]) <= -1) { break L33; }
     l12 = 1L;
     break L32;
    }
    L34: {
     if (l25 + Integer.MIN_VALUE >= 2147483616) { break L34; }
     l12 = 2L;
     break L32;
    }
    l12 = (l25 + Integer.MIN_VALUE < 2147483632) ? 3L : 4L;
   }
   L35: {
    if (l9 == l12) { break L35; }
    L36: {
     L37: {
      if ((l23 = (int) b[((int) (l15 = l14 + l12)) - 58912]) <= -1) { break L37; }
      l16 = 1L;
      break L36;
     }
     L38: {
      if (l23 + Integer.MIN_VALUE >= 2147483616) { break L38; }
      l16 = 2L;
      break L36;
     }
     l16 = (l23 + Integer.MIN_VALUE < 2147483632) ? 3L : 4L;
    }
    if (l9 == (l12 = l16 + l12)) { break L35; }
    L39: {
     L40: {
      if ((l23 = (int) b[((int) (l15 = l15 + l16)) - 58912]) <= -1) { break L40; }
      l16 = 1L;
      break L39;
     }
     L41: {
      if (l23 + Integer.MIN_VALUE >= 2147483616) { break L41; }
      l16 = 2L;
      break L39;
     }
     l16 = (l23 + Integer.MIN_VALUE < 2147483632) ? 3L : 4L;
    }
    if (l9 == (l12 = l16 + l12)) { break L35; }
    L42: {
     L43: {
      if ((l23 = (int) b[((int) (l15 + l16)) - 58912]) <= -1) { break L43; }
      l16 = 1L;
      break L42;
     }
     L44: {
      if (l23 + Integer.MIN_VALUE >= 2147483616) { break L44; }
      l16 = 2L;
      break L42;
     }
     l16 = (l23 + Integer.MIN_VALUE < 2147483632) ? 3L : 4L;
    }
    if (l9 != (l16 + l12)) { break L2; }
   }
   if (f195(m, l1, l8) != 0) { break L2; }
   L45: {
    final int x76 = f191_1(m, l1, l2, l3, l4, l7, l8, l9, l10, l11, l12, l13, l14, l15, l16, l23, l24, l25, l26);
    l12 = m.kept[0];
    l15 = m.kept[1];
    l16 = m.kept[2];
    l23 = (int) m.kept[3];
    l24 = (int) m.kept[4];
    l25 = (int) m.kept[5];
    l26 = (int) m.kept[6];
    switch (x76) {
    case 1: break L2;
    case 2: break L45;
    }
    Words.put64(b, ((int) l7) - 58280, 0L);
    Words.put64(b, ((int) l7) - 58288, 0L);
    Words.put64(b, ((int) l7) - 58296, 0L);
    L77: {
     if (f199(m, 0, l3, l13) != 0) { break L77; }
     if (f199(m, 12, l3, l13) == 0) { break L77; }
     if (f199(m, 0, l14, l9) != 0) { break L77; }
     if (f199(m, 31, l14, l9) == 0) { break L77; }
     Core4.f134(m, l7 + 616L, 21, l11, l10);
     if ((b[((int) l7) - 58296] & 0xff) != 1) { break L77; }
     l12 = 0L;
     break L45;
    }
    Words.put64(b, ((int) l7) - 58280, 0L);
    Words.put64(b, ((int) l7) - 58288, 0L);
    Words.put64(b, ((int) l7) - 58296, 0L);
    f197(m, l7 + 616L, 87448L, 4L, l11, l10);
    final int x105 = f191_2(m, l1, l2, l3, l4, l7, l8, l9, l10, l11, l12, l13, l14, l15, l16, l23, l24, l25, l26, l27, l28);
    l12 = m.kept[0];
    l15 = m.kept[1];
    l16 = m.kept[2];
    l23 = (int) m.kept[3];
    l24 = (int) m.kept[4];
    l25 = (int) m.kept[5];
    l26 = (int) m.kept[6];
    l27 = (int) m.kept[7];
    l28 = (int) m.kept[8];
    switch (x105) {
    case 1: break L2;
    case 2: break L45;
    }
    Words.put64(b, ((int) l7) - 58280, 0L);
    Words.put64(b, ((int) l7) - 58288, 0L);
    Words.put64(b, ((int) l7) - 58296, 0L);
    f197(m, l7 + 616L, 87448L, 4L, l11, l10);
    L106: {
     L107: {
      if ((b[((int) l7) - 58296] & 0xff) == 1) { break L107; }
      f197(m, l7 + 616L, 87452L, 12L, l11, l10);
      if ((b[((int) l7) - 58296] & 0xff) != 1) { break L106; }
     }
     l10 = Words.get64(b, ((int) l7) - 58280);
     l11 = Words.get64(b, ((int) l7) - 58288);
    }
    l12 = 1L;
   }
   Words.put64(b, ((int) l7) - 58248, 0L);
   Words.put64(b, ((int) l7) - 58256, 0L);
   Words.put64(b, ((int) l7) - 58264, 0L);
   Words.put64(b, ((int) l7) - 58272, 0L);
   Words.put64(b, ((int) l7) - 58280, 0L);
   Words.put64(b, ((int) l7) - 58288, 0L);
   Words.put64(b, ((int) l7) - 58296, 0L);
   f194(m, l7 + 616L, 0, 0, l11, l10);
   Words.put64(b, ((int) l7) - 58496, Words.get64(b, ((int) l7) - 58288));
   Words.put64(b, ((int) l7) - 58488, Words.get64(b, ((int) l7) - 58280));
   Words.put64(b, ((int) l7) - 58480, Words.get64(b, ((int) l7) - 58272));
   Words.put64(b, ((int) l7) - 58472, Words.get64(b, ((int) l7) - 58264));
   Words.put64(b, ((int) l7) - 58464, Words.get64(b, ((int) l7) - 58256));
   Words.put64(b, ((int) l7) - 58456, Words.get64(b, ((int) l7) - 58248));
   l16 = b[((int) l7) - 58296] & 0xffL;
   Words.put64(b, ((int) (l0 + 8L)) - 58912, 0L);
   Words.put64(b, ((int) l0) - 58912, 1L);
   Words.put64(b, ((int) (l0 + 16L)) - 58912, 0L);
   Words.put64(b, ((int) (l0 + 80L)) - 58912, 0L);
   Words.put64(b, ((int) (l0 + 72L)) - 58912, l10);
   Words.put64(b, ((int) (l0 + 64L)) - 58912, l11);
   Words.put64(b, ((int) (l0 + 56L)) - 58912, l9);
   Words.put64(b, ((int) (l0 + 48L)) - 58912, l14);
   Words.put64(b, ((int) (l0 + 40L)) - 58912, l13);
   Words.put64(b, ((int) (l0 + 32L)) - 58912, l3);
   Words.put64(b, ((int) (l0 + 24L)) - 58912, l12);
   Words.put64(b, ((int) (l0 + 88L)) - 58912, 0L);
   Words.put64(b, ((int) (l0 + 96L)) - 58912, 0L);
   Words.put64(b, ((int) (l0 + 104L)) - 58912, 0L);
   Words.put64(b, ((int) (l0 + 112L)) - 58912, 0L);
   Words.put64(b, ((int) (l0 + 120L)) - 58912, 0L);
   Words.put64(b, ((int) (l0 + 128L)) - 58912, 0L);
   Words.put64(b, ((int) (l0 + 136L)) - 58912, 0L);
   Words.put64(b, ((int) (l0 + 160L)) - 58912, l16);
   Words.put64(b, ((int) (l0 + 152L)) - 58912, 0L);
   Words.put64(b, ((int) (l0 + 144L)) - 58912, 83372L);
   Words.put64(b, ((int) (l0 + 224L)) - 58912, 0L);
   Words.put64(b, ((int) (l0 + 216L)) - 58912, 0L);
   Words.put64(b, ((int) (l0 + 168L)) - 58912, Words.get64(b, ((int) l7) - 58496));
   Words.put64(b, ((int) (l0 + 176L)) - 58912, Words.get64(b, ((int) l7) - 58488));
   Words.put64(b, ((int) (l0 + 184L)) - 58912, Words.get64(b, ((int) l7) - 58480));
   Words.put64(b, ((int) (l0 + 192L)) - 58912, Words.get64(b, ((int) l7) - 58472));
   Words.put64(b, ((int) (l0 + 200L)) - 58912, Words.get64(b, ((int) l7) - 58464));
   Words.put64(b, ((int) (l0 + 208L)) - 58912, Words.get64(b, ((int) l7) - 58456));
   break L1;
  }
  Words.put64(b, ((int) l7) - 58272, 0L);
  Words.put64(b, ((int) l7) - 58280, 0L);
  Words.put64(b, ((int) l7) - 58288, 0L);
  Words.put64(b, ((int) l7) - 58296, 0L);
  L108: {
   if (l4 == 0L) { break L108; }
   l25 = (l23 = (int) b[((int) l3) - 58912]) & 255;
   L109: {
    if (l23 > -1) { break L109; }
    l24 = (b[((int) l3) - 58911] & 0xff) & 63;
    L110: {
     if (l23 + Integer.MIN_VALUE > 2147483615) { break L110; }
     l25 = ((l25 << 6) & 1984) | l24;
     break L109;
    }
    l26 = (b[((int) l3) - 58910] & 0xff) & 63;
    L111: {
     if (l23 + Integer.MIN_VALUE > 2147483631) { break L111; }
     l25 = ((l24 << 6) | ((l25 << 12) & 61440)) | l26;
     break L109;
    }
    l25 = ((l26 << 6) | ((l24 << 12) | ((l25 << 18) & 1835008))) | ((b[((int) l3) - 58909] & 0xff) & 63);
   }
   L112: {
    if ((l25 + -48) + Integer.MIN_VALUE < -2147483638) { break L112; }
    if ((l25 + -65296) + Integer.MIN_VALUE >= -2147483638) { break L108; }
   }
   f202(m, l7 + 616L, l1, l8, l3, l4);
   if ((b[((int) l7) - 58296] & 0xff) != 1) { break L108; }
   l11 = Words.get64(b, ((int) l7) - 58272);
   l9 = Words.get64(b, ((int) l7) - 58280);
   l12 = Words.get64(b, ((int) l7) - 58288);
   Words.put64(b, ((int) l7) - 58248, 0L);
   Words.put64(b, ((int) l7) - 58256, 0L);
   Words.put64(b, ((int) l7) - 58264, 0L);
   Words.put64(b, ((int) l7) - 58272, 0L);
   Words.put64(b, ((int) l7) - 58280, 0L);
   Words.put64(b, ((int) l7) - 58288, 0L);
   Words.put64(b, ((int) l7) - 58296, 0L);
   f194(m, l7 + 616L, 0, 0, l9, l11);
   Words.put64(b, ((int) l7) - 58544, Words.get64(b, ((int) l7) - 58288));
   Words.put64(b, ((int) l7) - 58536, Words.get64(b, ((int) l7) - 58280));
   Words.put64(b, ((int) l7) - 58528, Words.get64(b, ((int) l7) - 58272));
   Words.put64(b, ((int) l7) - 58520, Words.get64(b, ((int) l7) - 58264));
   Words.put64(b, ((int) l7) - 58512, Words.get64(b, ((int) l7) - 58256));
   Words.put64(b, ((int) l7) - 58504, Words.get64(b, ((int) l7) - 58248));
   l10 = b[((int) l7) - 58296] & 0xffL;
   Words.put64(b, ((int) (l0 + 40L)) - 58912, l11);
   Words.put64(b, ((int) (l0 + 32L)) - 58912, l9);
   Words.put64(b, ((int) (l0 + 24L)) - 58912, l12);
   Words.put64(b, ((int) (l0 + 16L)) - 58912, 1L);
   Words.put64(b, ((int) (l0 + 8L)) - 58912, 0L);
   Words.put64(b, ((int) l0) - 58912, 1L);
   m.fill((int) (l0 + 48L), 0, (int) 96L);
   Words.put64(b, ((int) (l0 + 160L)) - 58912, l10);
   Words.put64(b, ((int) (l0 + 152L)) - 58912, 0L);
   Words.put64(b, ((int) (l0 + 144L)) - 58912, 83372L);
   Words.put64(b, ((int) (l0 + 216L)) - 58912, 0L);
   Words.put64(b, ((int) (l0 + 224L)) - 58912, 0L);
   Words.put64(b, ((int) (l0 + 168L)) - 58912, Words.get64(b, ((int) l7) - 58544));
   Words.put64(b, ((int) (l0 + 176L)) - 58912, Words.get64(b, ((int) l7) - 58536));
   Words.put64(b, ((int) (l0 + 184L)) - 58912, Words.get64(b, ((int) l7) - 58528));
   Words.put64(b, ((int) (l0 + 192L)) - 58912, Words.get64(b, ((int) l7) - 58520));
   Words.put64(b, ((int) (l0 + 200L)) - 58912, Words.get64(b, ((int) l7) - 58512));
   Words.put64(b, ((int) (l0 + 208L)) - 58912, Words.get64(b, ((int) l7) - 58504));
   break L1;
  }
  Core4.f119(m, l7 + 240L, l1, l2, l3, l4, l5, l6);
  l17 = 0L;
  l18 = 0L;
  l19 = 0L;
  l11 = 0L;
  l20 = 0L;
  l14 = 0L;
  l2 = 0L;
  l13 = 0L;
  l16 = 0L;
  l10 = 0L;
  l15 = 0L;
  l9 = 0L;
  l12 = 0L;
  l21 = 0L;
  f191_3(m, l1, l2, l3, l4, l7, l8, l9, l10, l11, l12, l13, l14, l15, l16, l17, l18, l19, l20, l21, l22, l23, l24, l25, l26, l27);
  l2 = m.kept[0];
  l9 = m.kept[1];
  l10 = m.kept[2];
  l11 = m.kept[3];
  l12 = m.kept[4];
  l13 = m.kept[5];
  l14 = m.kept[6];
  l15 = m.kept[7];
  l16 = m.kept[8];
  l17 = m.kept[9];
  l18 = m.kept[10];
  l19 = m.kept[11];
  l20 = m.kept[12];
  l21 = m.kept[13];
  l22 = m.kept[14];
  l23 = (int) m.kept[15];
  l24 = (int) m.kept[16];
  l25 = (int) m.kept[17];
  l26 = (int) m.kept[18];
  l27 = (int) m.kept[19];
  Words.put64(b, ((int) l0) - 58912, l22);
  Words.put64(b, ((int) (l0 + 72L)) - 58912, l19);
  Words.put64(b, ((int) (l0 + 64L)) - 58912, l18);
  Words.put64(b, ((int) (l0 + 56L)) - 58912, l17);
  Words.put64(b, ((int) (l0 + 48L)) - 58912, l13);
  Words.put64(b, ((int) (l0 + 40L)) - 58912, l2);
  Words.put64(b, ((int) (l0 + 32L)) - 58912, l14);
  Words.put64(b, ((int) (l0 + 24L)) - 58912, l20);
  Words.put64(b, ((int) (l0 + 16L)) - 58912, l11);
  Words.put64(b, ((int) (l0 + 8L)) - 58912, l21);
  Words.put64(b, ((int) (l0 + 80L)) - 58912, Words.get64(b, ((int) l7) - 58712));
  Words.put64(b, ((int) (l0 + 88L)) - 58912, Words.get64(b, ((int) l7) - 58704));
  Words.put64(b, ((int) (l0 + 96L)) - 58912, Words.get64(b, ((int) l7) - 58696));
  Words.put64(b, ((int) (l0 + 104L)) - 58912, Words.get64(b, ((int) l7) - 58688));
  Words.put64(b, ((int) (l0 + 112L)) - 58912, Words.get64(b, ((int) l7) - 58680));
  Words.put64(b, ((int) (l0 + 160L)) - 58912, l12);
  Words.put64(b, ((int) (l0 + 152L)) - 58912, 0L);
  Words.put64(b, ((int) (l0 + 144L)) - 58912, l9);
  Words.put64(b, ((int) (l0 + 136L)) - 58912, l15);
  Words.put64(b, ((int) (l0 + 128L)) - 58912, l10);
  Words.put64(b, ((int) (l0 + 120L)) - 58912, l16);
  Words.put64(b, ((int) (l0 + 168L)) - 58912, Words.get64(b, ((int) l7) - 58760));
  Words.put64(b, ((int) (l0 + 176L)) - 58912, Words.get64(b, ((int) l7) - 58752));
  Words.put64(b, ((int) (l0 + 184L)) - 58912, Words.get64(b, ((int) l7) - 58744));
  Words.put64(b, ((int) (l0 + 192L)) - 58912, Words.get64(b, ((int) l7) - 58736));
  Words.put64(b, ((int) (l0 + 200L)) - 58912, Words.get64(b, ((int) l7) - 58728));
  Words.put64(b, ((int) (l0 + 208L)) - 58912, Words.get64(b, ((int) l7) - 58720));
  Words.put64(b, ((int) (l0 + 224L)) - 58912, Words.get64(b, ((int) l7) - 58768));
  Words.put64(b, ((int) (l0 + 216L)) - 58912, Words.get64(b, ((int) l7) - 58776));
 }
 m.g0 = l7 + 816L;
}

static int f192_1(State m, long l0, long l1, long l2, long l3, long l4, long l5, long l6, long l7, long l8, long l9, long l10, int l11, int l12, int l13, int l14, int l15, int l16, int l17) {
 final byte[] b = m.bytes;
 int exit = 0;
 PART: {
  L6: {
   L7: {
    L8: {
     L9: {
      switch ((int) (b[((int) l4) - 58912] & 0xffL)) {
      case 1: break L8;
      case 2: break L7;
      case 3: break L6;
      default: break L9;
      }
     }
     Words.put64(b, ((int) l5) - 58864, 0L);
     l11 = 0;
     Words.put32(b, ((int) l5) - 58856, 0);
     if (Core5.f174(m, l12 = (int) (l9 >>> 8L), l13 = (int) (l9 >>> 48L), l2, l3, l8, l7) != 0) { exit = 1; break PART; }
     l14 = (int) ((l13 & 0xffffffffL) % 100L);
     L10: {
      if (l3 == 0L) { break L10; }
      if ((l12 & 255) != 3) { break L10; }
      if (l14 != 0) { break L10; }
      l14 = (l15 = (int) b[((int) l2) - 58912]) & 255;
      L11: {
       if (l15 > -1) { break L11; }
       l16 = (b[((int) l2) - 58911] & 0xff) & 63;
       L12: {
        if (l15 + Integer.MIN_VALUE > 2147483615) { break L12; }
        l14 = ((l14 << 6) & 1984) | l16;
        break L11;
       }
       l17 = (b[((int) l2) - 58910] & 0xff) & 63;
       L13: {
        if (l15 + Integer.MIN_VALUE > 2147483631) { break L13; }
        l14 = ((l16 << 6) | ((l14 << 12) & 61440)) | l17;
        break L11;
       }
       l14 = ((l17 << 6) | ((l16 << 12) | ((l14 << 18) & 1835008))) | ((b[((int) l2) - 58909] & 0xff) & 63);
      }
      if (l1 == 0L) { exit = 2; break PART; }
      if (((l14 + -58) + Integer.MIN_VALUE < 2147483638) & ((l14 + -65306) + Integer.MIN_VALUE < 2147483638)) { exit = 2; break PART; }
      if (((int) b[((int) ((l4 = l0 + l1) + -1L)) - 58912]) > -1) { exit = 2; break PART; }
      l2 = -2L;
      L14: {
       if ((b[((int) (l4 + -2L)) - 58912] & 0xff) + Integer.MIN_VALUE > -2147483457) { break L14; }
       l2 = ((b[((int) (l4 + -3L)) - 58912] & 0xff) + Integer.MIN_VALUE > -2147483457) ? -3L : -4L;
      }
      if ((l14 = (int) b[((int) (l4 = (l0 + l2) + l1)) - 58912]) > -1) { exit = 2; break PART; }
      if (l14 + Integer.MIN_VALUE < 2147483616) { exit = 2; break PART; }
      l15 = l14 & 255;
      l16 = (b[((int) l4) - 58911] & 0xff) & 63;
      l17 = (b[((int) l4) - 58910] & 0xff) & 63;
      L15: {
       L16: {
        if (l14 + Integer.MIN_VALUE > 2147483631) { break L16; }
        l14 = ((l16 << 6) | ((l15 << 12) & 61440)) | l17;
        break L15;
       }
       l14 = ((l17 << 6) | ((l16 << 12) | ((l15 << 18) & 1835008))) | ((b[((int) l4) - 58909] & 0xff) & 63);
      }
      L17: {
       if (l14 > 32462) { break L17; }
       L18: {
        if (l14 > 32003) { break L18; }
        if (l14 == 20170) { exit = 1; break PART; }
        if (l14 != 26377) { exit = 2; break PART; }
        exit = 1; break PART;
       }
       if (l14 == 32004) { exit = 1; break PART; }
       if (l14 == 32147) { exit = 1; break PART; }
       if (l14 != 32422) { exit = 2; break PART; }
       exit = 1; break PART;
      }
      if ((l15 = l14 + -36798) + Integer.MIN_VALUE > -2147483629) { exit = 3; break PART; }
      if (((1 << l15) & 524801) == 0) { exit = 3; break PART; }
      exit = 1; break PART;
     }
     if ((l12 & 255) != 21) { exit = 2; break PART; }
     if (Core7.f218(m, l0, l1, l8, l7) != 0) { exit = 1; break PART; }
     exit = 2; break PART;
    }
    l3 = Words.get64(b, ((int) (l4 + 112L)) - 58912);
    l4 = l8 = Words.get64(b, ((int) (l4 + 48L)) - 58912);
    l2 = l10;
    L19: {
     L20: while (true) {
      if (l2 == 0L) { break L19; }
      l11 = (l12 = (int) b[((int) l4) - 58912]) & 255;
      l9 = 1L;
      L21: {
       if (l12 > -1) { break L21; }
       l13 = (b[((int) l4) - 58911] & 0xff) & 63;
       L22: {
        if (l12 + Integer.MIN_VALUE > 2147483615) { break L22; }
        l11 = ((l11 << 6) & 1984) | l13;
        l9 = 2L;
        break L21;
       }
       l14 = (b[((int) l4) - 58910] & 0xff) & 63;
       L23: {
        if (l12 + Integer.MIN_VALUE > 2147483631) { break L23; }
        l11 = ((l13 << 6) | ((l11 << 12) & 61440)) | l14;
        l9 = 3L;
        break L21;
       }
       l11 = ((l14 << 6) | ((l13 << 12) | ((l11 << 18) & 1835008))) | ((b[((int) l4) - 58909] & 0xff) & 63);
       l9 = 4L;
      }
      L24: {
       if ((l11 + -48) + Integer.MIN_VALUE < -2147483638) { break L24; }
       l2 = l2 - l9;
       l4 = l4 + l9;
       if ((l11 + -65296) + Integer.MIN_VALUE > -2147483639) { continue L20; }
      }
      break L20;
     }
     Core7.f219(m, l5 + 8L, l8, l10);
     l4 = Words.get64(b, ((int) l5) - 58896);
     l9 = Words.get64(b, ((int) l5) - 58904);
     Words.put64(b, ((int) l5) - 58808, 0L);
     Words.put64(b, ((int) l5) - 58816, 0L);
     Words.put64(b, ((int) l5) - 58824, 0L);
     Words.put64(b, ((int) l5) - 58832, 0L);
     Words.put64(b, ((int) l5) - 58840, 0L);
     Words.put64(b, ((int) l5) - 58848, 0L);
     Words.put64(b, ((int) l5) - 58856, 0L);
     Words.put64(b, ((int) l5) - 58864, 0L);
     Core3.f80(m, l5 + 48L, l9, l4, 1);
     l11 = 0;
     if ((b[((int) l5) - 58864] & 0xff) != 0) { exit = 1; break PART; }
    }
    l11 = 0;
    if (f203(m, l0, l1) != 0) { exit = 1; break PART; }
    if (Core7.f220(m, l0, l1, l8, l10, l6, l3) != 0) { exit = 1; break PART; }
    l11 = Core7.f221(m, l8, l10, l6, l3) ^ 1;
    exit = 1; break PART;
   }
   l1 = Words.get64(b, ((int) (l4 + 96L)) - 58912);
   l3 = Words.get64(b, ((int) (l4 + 88L)) - 58912);
   l8 = Words.get64(b, ((int) (l4 + 80L)) - 58912);
   l4 = Words.get64(b, ((int) (l4 + 32L)) - 58912);
   l11 = 0;
   m.fill((int) (l5 + 48L), 0, (int) 112L);
   Core2.f79(m, l5 + 48L, l7, l4, l8, l3);
   if ((b[((int) l5) - 58864] & 0xff) != 1) { exit = 1; break PART; }
   L25: {
    if (((l12 = (int) l10) + -8211) + Integer.MIN_VALUE < -2147483646) { break L25; }
    if (l12 == 65293) { break L25; }
    l11 = 1;
    if (l12 != 45) { exit = 1; break PART; }
   }
   Words.put64(b, ((int) l5) - 58712, 0L);
   Words.put64(b, ((int) l5) - 58720, 0L);
   Words.put64(b, ((int) l5) - 58728, 0L);
   Words.put64(b, ((int) l5) - 58736, 0L);
   Words.put64(b, ((int) l5) - 58744, 0L);
   l4 = l8;
   l2 = l3;
   L26: {
    L27: while (true) {
     if (l2 == 0L) { break L26; }
     l11 = (l12 = (int) b[((int) l4) - 58912]) & 255;
     l9 = 1L;
     L28: {
      if (l12 > -1) { break L28; }
      l13 = (b[((int) l4) - 58911] & 0xff) & 63;
      L29: {
       if (l12 + Integer.MIN_VALUE > 2147483615) { break L29; }
       l11 = ((l11 << 6) & 1984) | l13;
       l9 = 2L;
       break L28;
      }
      l14 = (b[((int) l4) - 58910] & 0xff) & 63;
      L30: {
       if (l12 + Integer.MIN_VALUE > 2147483631) { break L30; }
       l11 = ((l13 << 6) | ((l11 << 12) & 61440)) | l14;
       l9 = 3L;
       break L28;
      }
      l11 = ((l14 << 6) | ((l13 << 12) | ((l11 << 18) & 1835008))) | ((b[((int) l4) - 58909] & 0xff) & 63);
      l9 = 4L;
     }
     Core2.f61(m, l5 + 24L, l11);
     l2 = l2 - l9;
     l4 = l4 + l9;
     l11 = 1;
     if ((b[((int) l5) - 58888] & 0xff) != 1) { continue L27; }
     if (((b[((int) l5) - 58887] & 0xff) & 255) + Integer.MIN_VALUE <= -2147483647) { continue L27; }
     exit = 1; break PART;
    }
   }
   L31: {
    L32: while (true) {
     if (l3 == 0L) { break L31; }
     l11 = (l12 = (int) b[((int) l8) - 58912]) & 255;
     l4 = 1L;
     L33: {
      if (l12 > -1) { break L33; }
      l13 = (b[((int) l8) - 58911] & 0xff) & 63;
      L34: {
       if (l12 + Integer.MIN_VALUE > 2147483615) { break L34; }
       l11 = ((l11 << 6) & 1984) | l13;
       l4 = 2L;
       break L33;
      }
      l14 = (b[((int) l8) - 58910] & 0xff) & 63;
      L35: {
       if (l12 + Integer.MIN_VALUE > 2147483631) { break L35; }
       l11 = ((l13 << 6) | ((l11 << 12) & 61440)) | l14;
       l4 = 3L;
       break L33;
      }
      l11 = ((l14 << 6) | ((l13 << 12) | ((l11 << 18) & 1835008))) | ((b[((int) l8) - 58909] & 0xff) & 63);
      l4 = 4L;
     }
     L36: {
      if (l11 == 37) { break L36; }
      if (l11 == 8240) { break L36; }
      l3 = l3 - l4;
      l8 = l8 + l4;
      if (l11 != 65285) { continue L32; }
     }
     break L32;
    }
    l11 = 1;
    exit = 1; break PART;
   }
   l11 = 1;
   if (Core7.f215(m, l1, l6) != 0) { exit = 1; break PART; }
   f193(m, l5 + 168L, l1, l6);
   l11 = ((b[((int) l5) - 58744] & 0xff) == 1) ? 1 : 0;
   exit = 1; break PART;
  }
 }
 m.kept[0] = l1;
 m.kept[1] = l2;
 m.kept[2] = l3;
 m.kept[3] = l4;
 m.kept[4] = l8;
 m.kept[5] = l9;
 m.kept[6] = l11;
 m.kept[7] = l12;
 m.kept[8] = l13;
 m.kept[9] = l14;
 m.kept[10] = l15;
 m.kept[11] = l16;
 m.kept[12] = l17;
 return exit;
}

static int f192(State m, long l0, long l1, long l2, long l3, long l4) {
 final byte[] b = m.bytes;
 long l5 = 0;
 long l6 = 0;
 long l7 = 0;
 long l8 = 0;
 long l9 = 0;
 long l10 = 0;
 int l11 = 0;
 int l12 = 0;
 int l13 = 0;
 int l14 = 0;
 int l15 = 0;
 int l16 = 0;
 int l17 = 0;
 m.g0 = l5 = m.g0 - 208L;
 L1: {
  L2: {
   L3: {
    L4: {
     L5: {
      if ((l5 = l5) < 16L) { break L5; }
      l6 = Words.get64(b, ((int) (l4 + 104L)) - 58912);
      l7 = Words.get64(b, ((int) (l4 + 24L)) - 58912);
      l8 = Words.get64(b, ((int) (l4 + 16L)) - 58912);
      l9 = Words.get64(b, ((int) (l4 + 8L)) - 58912);
      l10 = Words.get64(b, ((int) (l4 + 56L)) - 58912);
      final int x37 = f192_1(m, l0, l1, l2, l3, l4, l5, l6, l7, l8, l9, l10, l11, l12, l13, l14, l15, l16, l17);
      l1 = m.kept[0];
      l2 = m.kept[1];
      l3 = m.kept[2];
      l4 = m.kept[3];
      l8 = m.kept[4];
      l9 = m.kept[5];
      l11 = (int) m.kept[6];
      l12 = (int) m.kept[7];
      l13 = (int) m.kept[8];
      l14 = (int) m.kept[9];
      l15 = (int) m.kept[10];
      l16 = (int) m.kept[11];
      l17 = (int) m.kept[12];
      switch (x37) {
      case 1: break L1;
      case 2: break L2;
      case 3: break L3;
      }
      Core7.f222(m, l5 + 32L, l2, l7 = l3 - l8);
      l4 = Words.get64(b, ((int) l5) - 58872);
      l10 = Words.get64(b, ((int) l5) - 58880);
      Words.put64(b, ((int) l5) - 58808, 0L);
      Words.put64(b, ((int) l5) - 58816, 0L);
      Words.put64(b, ((int) l5) - 58824, 0L);
      Words.put64(b, ((int) l5) - 58832, 0L);
      Words.put64(b, ((int) l5) - 58840, 0L);
      Words.put64(b, ((int) l5) - 58848, 0L);
      Words.put64(b, ((int) l5) - 58856, 0L);
      Words.put64(b, ((int) l5) - 58864, 0L);
      Core3.f80(m, l5 + 48L, l10, l4, 1);
      l11 = 0;
      if ((b[((int) l5) - 58864] & 0xff) != 0) { break L1; }
      if (Core7.f220(m, l0, l1, l2, l7, l9, l8) != 0) { break L1; }
      Words.put64(b, ((int) l5) - 58832, 0L);
      Words.put64(b, ((int) l5) - 58840, 0L);
      Words.put64(b, ((int) l5) - 58848, 0L);
      Words.put64(b, ((int) l5) - 58856, 0L);
      Words.put64(b, ((int) l5) - 58864, 0L);
      f193(m, l5 + 48L, l9, l8);
      final long t38 = l2;
      final long t39 = l7;
      final long t40 = Words.get64(b, ((int) l5) - 58840);
      final long t41 = l9;
      final int t42 = l12 = ((b[((int) l5) - 58864] & 0xff) == 1) ? 1 : 0;
      final long t43 = t42 != 0 ? t40 : t41;
      final long t44 = Words.get64(b, ((int) l5) - 58832);
      final long t45 = l8;
      final int t46 = l12;
      if (Core7.f221(m, t38, t39, t43, t46 != 0 ? t44 : t45) != 0) { break L1; }
      if (l3 == l8) { break L4; }
      L47: {
       L48: {
        if ((l12 = (int) b[((int) l2) - 58912]) <= -1) { break L48; }
        l4 = 1L;
        break L47;
       }
       L49: {
        if (l12 + Integer.MIN_VALUE >= 2147483616) { break L49; }
        l4 = 2L;
        break L47;
       }
       l4 = (l12 + Integer.MIN_VALUE < 2147483632) ? 3L : 4L;
      }
      L50: {
       if (l7 == l4) { break L50; }
       L51: {
        L52: {
         if ((l13 = (int) b[((int) (l2 + l4)) - 58912]) <= -1) { break L52; }
         l3 = 1L;
         break L51;
        }
        L53: {
         if (l13 + Integer.MIN_VALUE >= 2147483616) { break L53; }
         l3 = 2L;
         break L51;
        }
        l3 = (l13 + Integer.MIN_VALUE < 2147483632) ? 3L : 4L;
       }
       if (l7 != (l3 + l4)) { break L50; }
       if (f199(m, 60, l2, l7) != 0) { break L50; }
       L54: {
        L55: {
         if (l12 <= -1) { break L55; }
         l4 = 1L;
         break L54;
        }
        L56: {
         if (l12 + Integer.MIN_VALUE >= 2147483616) { break L56; }
         l4 = 2L;
         break L54;
        }
        l4 = (l12 + Integer.MIN_VALUE < 2147483632) ? 3L : 4L;
       }
       l13 = Core7.f212(m, l2 + l4, l7 - l4);
       if (l8 == 0L) { break L50; }
       if (l13 != 0) { break L50; }
       if ((l13 = (int) b[((int) l9) - 58912]) > -1) { break L50; }
       if (l13 + Integer.MIN_VALUE < 2147483616) { break L50; }
       l14 = l13 & 255;
       l15 = (b[((int) l9) - 58911] & 0xff) & 63;
       l16 = (b[((int) l9) - 58910] & 0xff) & 63;
       L57: {
        L58: {
         if (l13 + Integer.MIN_VALUE > 2147483631) { break L58; }
         l14 = ((l15 << 6) | ((l14 << 12) & 61440)) | l16;
         break L57;
        }
        l14 = ((l16 << 6) | ((l15 << 12) | ((l14 << 18) & 1835008))) | ((b[((int) l9) - 58909] & 0xff) & 63);
       }
       if (l14 != 24180) { break L50; }
       if (l8 == (l4 = (l13 + Integer.MIN_VALUE < 2147483632) ? 3L : 4L)) { break L1; }
       if ((l13 = (int) b[((int) (l4 = l9 + l4)) - 58912]) > -1) { break L1; }
       if (l13 + Integer.MIN_VALUE < 2147483616) { break L1; }
       l14 = l13 & 255;
       l15 = (b[((int) l4) - 58911] & 0xff) & 63;
       l16 = (b[((int) l4) - 58910] & 0xff) & 63;
       L59: {
        L60: {
         if (l13 + Integer.MIN_VALUE > 2147483631) { break L60; }
         l13 = ((l15 << 6) | ((l14 << 12) & 61440)) | l16;
         break L59;
        }
        l13 = ((l16 << 6) | ((l15 << 12) | ((l14 << 18) & 1835008))) | ((b[((int) l4) - 58909] & 0xff) & 63);
       }
       L61: {
        if (l13 > 26468) { break L61; }
        if (l13 == 20358) { break L50; }
        if (l13 == 26399) { break L50; }
        break L1;
       }
       if (l13 == 26469) { break L50; }
       if (l13 == 32026) { break L50; }
       if (l13 != 32423) { break L1; }
      }
      l13 = l12 & 255;
      Words.put64(b, ((int) l5) - 58832, 0L);
      Words.put64(b, ((int) l5) - 58840, 0L);
      Words.put64(b, ((int) l5) - 58848, 0L);
      Words.put64(b, ((int) l5) - 58856, 0L);
      Words.put64(b, ((int) l5) - 58864, 0L);
      L62: {
       if (l12 > -1) { break L62; }
       l11 = (b[((int) l2) - 58911] & 0xff) & 63;
       L63: {
        if (l12 + Integer.MIN_VALUE > 2147483615) { break L63; }
        l13 = ((l13 << 6) & 1984) | l11;
        break L62;
       }
       l14 = (b[((int) l2) - 58910] & 0xff) & 63;
       L64: {
        if (l12 + Integer.MIN_VALUE > 2147483631) { break L64; }
        l13 = ((l11 << 6) | ((l13 << 12) & 61440)) | l14;
        break L62;
       }
       l13 = ((l14 << 6) | ((l11 << 12) | ((l13 << 18) & 1835008))) | ((b[((int) l2) - 58909] & 0xff) & 63);
      }
      l11 = 1;
      if (l1 == 0L) { break L1; }
      if (l13 != 45) { break L1; }
      if (((int) b[((int) ((l4 = l0 + l1) + -1L)) - 58912]) > -1) { break L1; }
      l3 = -2L;
      L65: {
       if ((l15 = b[((int) (l4 + -2L)) - 58912] & 0xff) + Integer.MIN_VALUE > -2147483457) { break L65; }
       l3 = ((b[((int) (l4 + -3L)) - 58912] & 0xff) + Integer.MIN_VALUE > -2147483457) ? -3L : -4L;
      }
      l13 = (l14 = (int) b[((int) (l3 = (l0 + l3) + l1)) - 58912]) & 255;
      L66: {
       if (l14 > -1) { break L66; }
       l16 = (b[((int) l3) - 58911] & 0xff) & 63;
       L67: {
        if (l14 + Integer.MIN_VALUE > 2147483615) { break L67; }
        l13 = ((l13 << 6) & 1984) | l16;
        break L66;
       }
       l17 = (b[((int) l3) - 58910] & 0xff) & 63;
       L68: {
        if (l14 + Integer.MIN_VALUE > 2147483631) { break L68; }
        l13 = ((l16 << 6) | ((l13 << 12) & 61440)) | l17;
        break L66;
       }
       l13 = ((l17 << 6) | ((l16 << 12) | ((l13 << 18) & 1835008))) | ((b[((int) l3) - 58909] & 0xff) & 63);
      }
      if ((l13 + -19968) + Integer.MIN_VALUE > -2147462657) { break L1; }
      l3 = -2L;
      L69: {
       if (l15 + Integer.MIN_VALUE > -2147483457) { break L69; }
       l3 = ((b[((int) (l4 + -3L)) - 58912] & 0xff) + Integer.MIN_VALUE > -2147483457) ? -3L : -4L;
      }
      L70: {
       if ((l13 = (int) b[((int) (l4 = (l0 + l3) + l1)) - 58912]) > -1) { break L70; }
       if (l13 + Integer.MIN_VALUE < 2147483616) { break L70; }
       l14 = l13 & 255;
       l15 = (b[((int) l4) - 58911] & 0xff) & 63;
       l16 = (b[((int) l4) - 58910] & 0xff) & 63;
       L71: {
        L72: {
         if (l13 + Integer.MIN_VALUE > 2147483631) { break L72; }
         l13 = ((l15 << 6) | ((l14 << 12) & 61440)) | l16;
         break L71;
        }
        l13 = ((l16 << 6) | ((l15 << 12) | ((l14 << 18) & 1835008))) | ((b[((int) l4) - 58909] & 0xff) & 63);
       }
       L73: {
        if (l13 > 28200) { break L73; }
        L74: {
         if (l13 > 21039) { break L74; }
         if (l13 == 20026) { break L1; }
         if (l13 == 20110) { break L1; }
         if (l13 != 20540) { break L70; }
         break L1;
        }
        L75: {
         if (l13 > 26043) { break L75; }
         if (l13 == 21040) { break L1; }
         if (l13 != 24471) { break L70; }
         break L1;
        }
        if (l13 == 26044) { break L1; }
        if (l13 != 26159) { break L70; }
        break L1;
       }
       L76: {
        if (l13 > 32421) { break L76; }
        L77: {
         if (l13 > 28857) { break L77; }
         if (l13 == 28201) { break L1; }
         if (l13 != 28331) { break L70; }
         break L1;
        }
        if (l13 == 28858) { break L1; }
        if (l13 != 32004) { break L70; }
        break L1;
       }
       L78: {
        if (l13 > 36797) { break L78; }
        if (l13 == 32422) { break L1; }
        if (l13 != 33267) { break L70; }
        break L1;
       }
       if (l13 == 36798) { break L1; }
       if (l13 == 36948) { break L1; }
      }
      L79: {
       L80: {
        if (l12 <= -1) { break L80; }
        l4 = 1L;
        break L79;
       }
       L81: {
        if (l12 + Integer.MIN_VALUE >= 2147483616) { break L81; }
        l4 = 2L;
        break L79;
       }
       l4 = (l12 + Integer.MIN_VALUE < 2147483632) ? 3L : 4L;
      }
      l3 = l7 - l4;
      l4 = l2 + l4;
      L82: {
       L83: while (true) {
        if (l3 == 0L) { break L82; }
        l12 = (l13 = (int) b[((int) l4) - 58912]) & 255;
        l2 = 1L;
        L84: {
         if (l13 > -1) { break L84; }
         l14 = (b[((int) l4) - 58911] & 0xff) & 63;
         L85: {
          if (l13 + Integer.MIN_VALUE > 2147483615) { break L85; }
          l12 = ((l12 << 6) & 1984) | l14;
          l2 = 2L;
          break L84;
         }
         l15 = (b[((int) l4) - 58910] & 0xff) & 63;
         L86: {
          if (l13 + Integer.MIN_VALUE > 2147483631) { break L86; }
          l12 = ((l14 << 6) | ((l12 << 12) & 61440)) | l15;
          l2 = 3L;
          break L84;
         }
         l12 = ((l15 << 6) | ((l14 << 12) | ((l12 << 18) & 1835008))) | ((b[((int) l4) - 58909] & 0xff) & 63);
         l2 = 4L;
        }
        l3 = l3 - l2;
        l4 = l4 + l2;
        if ((l12 + -48) + Integer.MIN_VALUE < -2147483638) { continue L83; }
        if ((l12 + -65296) + Integer.MIN_VALUE < -2147483638) { continue L83; }
        break L1;
       }
      }
      if (Core7.f223(m, l9, l8) != 0) { break L1; }
      f193(m, l5 + 48L, l9, l8);
      l11 = ((b[((int) l5) - 58864] & 0xff) == 1) ? 1 : 0;
      break L1;
     }
     throw State.trap();
    }
    l11 = 1;
    break L1;
   }
   L87: {
    switch (l14 + -36942) {
    case 0: case 6: break L1;
    case 1: case 2: case 3: case 4: case 5: break L2;
    default: break L87;
    }
   }
   if (l14 == 32463) { break L1; }
  }
  Words.put16(b, ((int) l5) - 58740, (short) l13);
  Words.put32(b, ((int) l5) - 58744, (int) (l9 >>> 16L));
  Core4.f120(m, l5 + 48L, l12, l5 + 168L);
  l11 = ((b[((int) l5) - 58864] & 0xff) == 1) ? 1 : 0;
 }
 m.g0 = l5 + 208L;
 return l11;
}

static void f193(State m, long l0, long l1, long l2) {
 final byte[] b = m.bytes;
 long l3 = 0;
 long l4 = 0;
 long l5 = 0;
 long l6 = 0;
 long l7 = 0;
 long l8 = 0;
 long l9 = 0;
 int l10 = 0;
 int l11 = 0;
 int l12 = 0;
 int l13 = 0;
 int l14 = 0;
 int l15 = 0;
 m.g0 = l3 = m.g0 - 32L;
 L1: {
  L2: {
   L3: {
    L4: {
     L5: {
      L6: {
       L7: {
        if ((l3 = l3) < 16L) { break L7; }
        L8: {
         if (!(l2 == 0L)) { break L8; }
         l2 = 0L;
         l10 = 0;
         break L3;
        }
        l4 = 1L;
        l12 = l10 = (l11 = (int) b[((int) l1) - 58912]) & 255;
        L9: {
         if (l11 > -1) { break L9; }
         l12 = (b[((int) l1) - 58911] & 0xff) & 63;
         L10: {
          if (l11 + Integer.MIN_VALUE > 2147483615) { break L10; }
          l12 = ((l10 << 6) & 1984) | l12;
          l4 = 2L;
          break L9;
         }
         l13 = (b[((int) l1) - 58910] & 0xff) & 63;
         L11: {
          if (l11 + Integer.MIN_VALUE > 2147483631) { break L11; }
          l12 = ((l12 << 6) | ((l10 << 12) & 61440)) | l13;
          l4 = 3L;
          break L9;
         }
         l12 = ((l13 << 6) | ((l12 << 12) | ((l10 << 18) & 1835008))) | ((b[((int) l1) - 58909] & 0xff) & 63);
         l4 = 4L;
        }
        if (l12 != 35) { break L4; }
        if ((l5 = l2 - l4) == 0L) { break L4; }
        if ((l12 = (int) b[((int) (l6 = l1 + l4)) - 58912]) > -1) { break L4; }
        if (l12 + Integer.MIN_VALUE < 2147483616) { break L4; }
        l13 = l12 & 255;
        l14 = (b[((int) l6) - 58911] & 0xff) & 63;
        l15 = (b[((int) l6) - 58910] & 0xff) & 63;
        L12: {
         if (l12 + Integer.MIN_VALUE > 2147483631) { break L12; }
         if (((l12 = (l14 << 6) | ((l13 << 12) & 61440)) + -19968) + Integer.MIN_VALUE >= -2147462656) { break L6; }
         break L2;
        }
        if (((l12 = (l15 << 6) | ((l14 << 12) | ((l13 << 18) & 1835008))) + -19968) + Integer.MIN_VALUE < -2147462656) { break L2; }
        l12 = l12 | ((b[((int) l6) - 58909] & 0xff) & 63);
        break L5;
       }
       throw State.trap();
      }
      l12 = l12 | l15;
     }
     if (l12 == 12289) { break L2; }
    }
    L13: {
     L14: {
      if (l11 > -1) { break L14; }
      l12 = (b[((int) l1) - 58911] & 0xff) & 63;
      L15: {
       if (l11 + Integer.MIN_VALUE < 2147483616) { break L15; }
       l13 = (b[((int) l1) - 58910] & 0xff) & 63;
       L16: {
        L17: {
         if (l11 + Integer.MIN_VALUE > 2147483631) { break L17; }
         l12 = ((l12 << 6) | ((l10 << 12) & 61440)) | l13;
         break L16;
        }
        l12 = ((l13 << 6) | ((l12 << 12) | ((l10 << 18) & 1835008))) | ((b[((int) l1) - 58909] & 0xff) & 63);
       }
       l13 = (b[((int) l1) - 58910] & 0xff) & 63;
       l14 = (b[((int) l1) - 58911] & 0xff) & 63;
       L18: {
        L19: {
         if (l11 + Integer.MIN_VALUE > 2147483631) { break L19; }
         l13 = ((l14 << 6) | ((l10 << 12) & 61440)) | l13;
         break L18;
        }
        l13 = ((l13 << 6) | ((l14 << 12) | ((l10 << 18) & 1835008))) | ((b[((int) l1) - 58909] & 0xff) & 63);
       }
       l10 = (l12 == 32) ? 1 : 0;
       if (l13 != 32) { break L3; }
       l4 = (l11 + Integer.MIN_VALUE < 2147483632) ? 3L : 4L;
       break L13;
      }
      l10 = (((l11 = (l10 << 6) & 1984) | l12) == 32) ? 1 : 0;
      if ((l11 | ((b[((int) l1) - 58911] & 0xff) & 63)) != 32) { break L3; }
      l4 = 2L;
      break L13;
     }
     if ((l10 = (l11 == 32) ? 1 : 0) == 0) { break L3; }
     l4 = 1L;
    }
    l2 = l2 - l4;
    l1 = l1 + l4;
   }
   l15 = l10 ^ 1;
   l4 = -2816L;
   L20: {
    L21: while (true) {
     Words.put64(b, ((int) l3) - 58888, 0L);
     Words.put64(b, ((int) l3) - 58896, 0L);
     Words.put64(b, ((int) l3) - 58904, 0L);
     f197(m, l3 + 8L, l7 = Words.get64(b, ((int) (l4 + 96744L)) - 58912), l8 = Words.get64(b, ((int) (l4 + 96752L)) - 58912), l1, l2);
     L22: {
      if ((b[((int) l3) - 58904] & 0xff) != 1) { break L22; }
      l6 = Words.get64(b, ((int) l3) - 58896);
      L23: {
       L24: {
        if ((l5 = Words.get64(b, ((int) l3) - 58888)) == 0L) { break L24; }
        l11 = (l12 = (int) b[((int) l6) - 58912]) & 255;
        l9 = 1L;
        L25: {
         if (l12 > -1) { break L25; }
         l13 = (b[((int) l6) - 58911] & 0xff) & 63;
         L26: {
          if (l12 + Integer.MIN_VALUE > 2147483615) { break L26; }
          l11 = ((l11 << 6) & 1984) | l13;
          l9 = 2L;
          break L25;
         }
         l14 = (b[((int) l6) - 58910] & 0xff) & 63;
         L27: {
          if (l12 + Integer.MIN_VALUE > 2147483631) { break L27; }
          l11 = ((l13 << 6) | ((l11 << 12) & 61440)) | l14;
          l9 = 3L;
          break L25;
         }
         l11 = ((l14 << 6) | ((l13 << 12) | ((l11 << 18) & 1835008))) | ((b[((int) l6) - 58909] & 0xff) & 63);
         l9 = 4L;
        }
        if (((l11 & 2097119) + -65) + Integer.MIN_VALUE < -2147483622) { break L22; }
        if (l11 == 95) { break L22; }
        if ((l11 & 2097150) == 178) { break L22; }
        if ((l12 = l11 + -48) + Integer.MIN_VALUE < -2147483638) { break L22; }
        if ((l11 + -65296) + Integer.MIN_VALUE < -2147483638) { break L22; }
        if (l5 == l9) { break L24; }
        if (l12 + Integer.MIN_VALUE < 2147483645) { break L24; }
        l11 = (l12 = (int) b[((int) (l9 = l6 + l9)) - 58912]) & 255;
        L28: {
         if (l12 > -1) { break L28; }
         l13 = (b[((int) l9) - 58911] & 0xff) & 63;
         L29: {
          if (l12 + Integer.MIN_VALUE > 2147483615) { break L29; }
          l11 = ((l11 << 6) & 1984) | l13;
          break L28;
         }
         l14 = (b[((int) l9) - 58910] & 0xff) & 63;
         L30: {
          if (l12 + Integer.MIN_VALUE > 2147483631) { break L30; }
          l11 = ((l13 << 6) | ((l11 << 12) & 61440)) | l14;
          break L28;
         }
         l11 = ((l14 << 6) | ((l13 << 12) | ((l11 << 18) & 1835008))) | ((b[((int) l9) - 58909] & 0xff) & 63);
        }
        L31: {
         if (((((l11 = (l11 & -33) + -65) + Integer.MIN_VALUE < -2147483622) ? 1 : 0) | l15) != 0) { break L31; }
         if (l8 == 0L) { break L20; }
         break L23;
        }
        if (((l10 ^ -1) & ((l11 + Integer.MIN_VALUE > -2147483623) ? 1 : 0)) != 0) { break L20; }
        break L22;
       }
       if ((l10 & ((l8 != 0L) ? 1 : 0)) == 0) { break L20; }
      }
      l11 = (l12 = (int) b[((int) l7) - 58912]) & 255;
      l9 = 1L;
      L32: {
       if (l12 > -1) { break L32; }
       l13 = (b[((int) l7) - 58911] & 0xff) & 63;
       L33: {
        if (l12 + Integer.MIN_VALUE > 2147483615) { break L33; }
        l11 = ((l11 << 6) & 1984) | l13;
        l9 = 2L;
        break L32;
       }
       l14 = (b[((int) l7) - 58910] & 0xff) & 63;
       L34: {
        if (l12 + Integer.MIN_VALUE > 2147483631) { break L34; }
        l11 = ((l13 << 6) | ((l11 << 12) & 61440)) | l14;
        l9 = 3L;
        break L32;
       }
       l11 = ((l14 << 6) | ((l13 << 12) | ((l11 << 18) & 1835008))) | ((b[((int) l7) - 58909] & 0xff) & 63);
       l9 = 4L;
      }
      if (l8 != l9) { break L20; }
      if (((l11 & 2097119) + -65) + Integer.MIN_VALUE >= -2147483622) { break L20; }
     }
     l5 = 0L;
     if ((l4 = l4 + 32L) != 0L) { continue L21; }
     break L21;
    }
    l7 = 0L;
    l8 = 0L;
    l4 = 0L;
    l6 = 0L;
    break L1;
   }
   l8 = Words.get64(b, ((int) (l4 + 96768L)) - 58912);
   l7 = Words.get64(b, ((int) (l4 + 96760L)) - 58912);
   l4 = 1L;
   break L1;
  }
  l4 = 1L;
  l8 = 3L;
  l7 = 93920L;
 }
 Words.put64(b, ((int) l0) - 58912, l4);
 Words.put64(b, ((int) (l0 + 32L)) - 58912, l5);
 Words.put64(b, ((int) (l0 + 24L)) - 58912, l6);
 Words.put64(b, ((int) (l0 + 16L)) - 58912, l8);
 Words.put64(b, ((int) (l0 + 8L)) - 58912, l7);
 m.g0 = l3 + 32L;
}

static void f194(State m, long l0, int l1, int l2, long l3, long l4) {
 final byte[] b = m.bytes;
 long l5 = 0;
 long l6 = 0;
 long l7 = 0;
 long l8 = 0;
 long l9 = 0;
 int l10 = 0;
 int l11 = 0;
 int l12 = 0;
 int l13 = 0;
 m.g0 = l5 = m.g0 - 112L;
 L1: {
  if ((l5 = l5) < 16L) { break L1; }
  l6 = 0L;
  Words.put64(b, ((int) l5) - 58848, 0L);
  Words.put64(b, ((int) l5) - 58856, 0L);
  Words.put64(b, ((int) l5) - 58864, 0L);
  Words.put64(b, ((int) l5) - 58872, 0L);
  Words.put64(b, ((int) l5) - 58880, 0L);
  Words.put64(b, ((int) l5) - 58896, 0L);
  Words.put64(b, ((int) l5) - 58888, 0L);
  Words.put64(b, ((int) l5) - 58912, 0L);
  Words.put64(b, ((int) l5) - 58904, 0L);
  f205(m, l5 + 32L, l1, l2, l3, l4);
  L2: {
   L3: {
    if ((b[((int) l5) - 58880] & 0xff) != 1) { break L3; }
    Words.put64(b, ((int) l5) - 58888, Words.get64(b, ((int) l5) - 58864));
    Words.put64(b, ((int) l5) - 58896, Words.get64(b, ((int) l5) - 58872));
    Words.put64(b, ((int) l5) - 58912, Words.get64(b, ((int) l5) - 58856));
    Words.put64(b, ((int) l5) - 58904, Words.get64(b, ((int) l5) - 58848));
    l3 = 83372L;
    l4 = 1L;
    break L2;
   }
   Words.put64(b, ((int) l5) - 58808, 0L);
   Words.put64(b, ((int) l5) - 58816, 0L);
   Words.put64(b, ((int) l5) - 58824, 0L);
   Words.put64(b, ((int) l5) - 58832, 0L);
   Words.put64(b, ((int) l5) - 58840, 0L);
   L4: {
    if (l4 == 0L) { break L4; }
    l10 = (l2 = (int) b[((int) l3) - 58912]) & 255;
    L5: {
     L6: {
      if (l2 > -1) { break L6; }
      l11 = (b[((int) l3) - 58911] & 0xff) & 63;
      L7: {
       if (l2 + Integer.MIN_VALUE < 2147483616) { break L7; }
       l12 = (b[((int) l3) - 58910] & 0xff) & 63;
       L8: {
        L9: {
         if (l2 + Integer.MIN_VALUE > 2147483631) { break L9; }
         l10 = ((l11 << 6) | ((l10 << 12) & 61440)) | l12;
         break L8;
        }
        l10 = ((l12 << 6) | ((l11 << 12) | ((l10 << 18) & 1835008))) | ((b[((int) l3) - 58909] & 0xff) & 63);
       }
       if (f189(m, l10) == 0) { break L4; }
       l7 = (l2 + Integer.MIN_VALUE < 2147483632) ? 3L : 4L;
       break L5;
      }
      if (f189(m, ((l10 << 6) & 1984) | l11) == 0) { break L4; }
      l7 = 2L;
      break L5;
     }
     if (f189(m, l10) == 0) { break L4; }
     l7 = 1L;
    }
    l6 = l3 + l7;
    l8 = 0L;
    L10: {
     if ((l7 = l4 - l7) == 0L) { break L10; }
     L11: {
      if ((l2 = (int) b[((int) l6) - 58912]) <= -1) { break L11; }
      l8 = l7;
      break L10;
     }
     L12: {
      if (l2 + Integer.MIN_VALUE >= 2147483616) { break L12; }
      l8 = l7;
      break L10;
     }
     l10 = l2 & 255;
     l11 = (b[((int) l6) - 58911] & 0xff) & 63;
     l12 = (b[((int) l6) - 58910] & 0xff) & 63;
     L13: {
      L14: {
       if (l2 + Integer.MIN_VALUE > 2147483631) { break L14; }
       l13 = ((l11 << 6) | ((l10 << 12) & 61440)) | l12;
       break L13;
      }
      l13 = ((l12 << 6) | ((l11 << 12) | ((l10 << 18) & 1835008))) | ((b[((int) l6) - 58909] & 0xff) & 63);
     }
     L15: {
      if ((l13 + -19968) + Integer.MIN_VALUE > -2147462657) { break L15; }
      l6 = l6 + (l9 = (l2 + Integer.MIN_VALUE < 2147483632) ? 3L : 4L);
      if ((l7 = l7 - l9) == 0L) { break L10; }
      L16: {
       if ((l10 = b[((int) l6) - 58912] & 0xff) + Integer.MIN_VALUE >= -2147483424) { break L16; }
       l8 = l7;
       break L10;
      }
      l12 = (b[((int) l6) - 58910] & 0xff) & 63;
      l11 = (b[((int) l6) - 58911] & 0xff) & 63;
      l2 = l10;
     }
     L17: {
      L18: {
       if ((l2 & 255) + Integer.MIN_VALUE > -2147483409) { break L18; }
       l10 = (((l10 << 12) & 61440) | (l11 << 6)) | l12;
       break L17;
      }
      l10 = ((((l10 << 18) & 1835008) | (l11 << 12)) | (l12 << 6)) | ((b[((int) l6) - 58909] & 0xff) & 63);
     }
     L19: {
      if ((l10 + -19968) + Integer.MIN_VALUE <= -2147462657) { break L19; }
      l8 = l7;
      break L10;
     }
     l8 = l7 - (l9 = ((l2 & 255) + Integer.MIN_VALUE < -2147483408) ? 3L : 4L);
     l6 = l6 + l9;
    }
    f205(m, l5 + 72L, l1, 1, l6, l8);
    if ((b[((int) l5) - 58840] & 0xff) != 1) { break L4; }
    Words.put64(b, ((int) l5) - 58888, Words.get64(b, ((int) l5) - 58824));
    Words.put64(b, ((int) l5) - 58896, Words.get64(b, ((int) l5) - 58832));
    Words.put64(b, ((int) l5) - 58912, Words.get64(b, ((int) l5) - 58816));
    Words.put64(b, ((int) l5) - 58904, Words.get64(b, ((int) l5) - 58808));
    l6 = l4 - l8;
    l4 = 1L;
    break L2;
   }
   l4 = 0L;
   Words.put64(b, ((int) l5) - 58888, 0L);
   Words.put64(b, ((int) l5) - 58896, 0L);
   Words.put64(b, ((int) l5) - 58912, 0L);
   Words.put64(b, ((int) l5) - 58904, 0L);
   l3 = 0L;
   l6 = 0L;
  }
  Words.put64(b, ((int) l0) - 58912, l4);
  Words.put64(b, ((int) (l0 + 16L)) - 58912, l6);
  Words.put64(b, ((int) (l0 + 8L)) - 58912, l3);
  Words.put64(b, ((int) (l0 + 24L)) - 58912, Words.get64(b, ((int) l5) - 58896));
  Words.put64(b, ((int) (l0 + 32L)) - 58912, Words.get64(b, ((int) l5) - 58888));
  Words.put64(b, ((int) (l0 + 40L)) - 58912, Words.get64(b, ((int) l5) - 58912));
  Words.put64(b, ((int) (l0 + 48L)) - 58912, Words.get64(b, ((int) l5) - 58904));
  m.g0 = l5 + 112L;
  return;
 }
 throw State.trap();
}

static int f195(State m, long l0, long l1) {
 final byte[] b = m.bytes;
 long l2 = 0;
 long l3 = 0;
 int l4 = 0;
 int l5 = 0;
 int l6 = 0;
 int l7 = 0;
 L1: {
  if (m.g0 < 16L) { break L1; }
  L2: {
   if (!(l1 == 0L)) { break L2; }
   return 0;
  }
  L3: {
   if ((l4 = (int) b[((int) ((l2 = l0 + l1) + -1L)) - 58912]) >= 0) { break L3; }
   l3 = -2L;
   L4: {
    if ((b[((int) (l2 + -2L)) - 58912] & 0xff) + Integer.MIN_VALUE > -2147483457) { break L4; }
    l3 = ((b[((int) (l2 + -3L)) - 58912] & 0xff) + Integer.MIN_VALUE > -2147483457) ? -3L : -4L;
   }
   l4 = (l5 = (int) b[((int) (l1 = (l0 + l3) + l1)) - 58912]) & 255;
   if (l5 > -1) { break L3; }
   l6 = (b[((int) l1) - 58911] & 0xff) & 63;
   L5: {
    if (l5 + Integer.MIN_VALUE > 2147483615) { break L5; }
    l4 = ((l4 << 6) & 1984) | l6;
    break L3;
   }
   l7 = (b[((int) l1) - 58910] & 0xff) & 63;
   L6: {
    if (l5 + Integer.MIN_VALUE > 2147483631) { break L6; }
    l4 = ((l6 << 6) | ((l4 << 12) & 61440)) | l7;
    break L3;
   }
   l4 = ((l7 << 6) | ((l6 << 12) | ((l4 << 18) & 1835008))) | ((b[((int) l1) - 58909] & 0xff) & 63);
  }
  l6 = 1;
  L7: {
   if (((l4 & -33) + -65) + Integer.MIN_VALUE < -2147483622) { break L7; }
   if ((l4 + -48) + Integer.MIN_VALUE < -2147483638) { break L7; }
   if ((l4 + -65296) + Integer.MIN_VALUE < -2147483638) { break L7; }
   l1 = -76L;
   L8: while (true) {
    if ((l6 = (Words.get32(b, ((int) (l1 + 87356L)) - 58912) == l4) ? 1 : 0) != 0) { break L7; }
    l5 = (l1 != 0L) ? 1 : 0;
    l1 = l1 + 4L;
    if (l5 != 0) { continue L8; }
    break L8;
   }
  }
  final int t9 = l6;
  return t9;
 }
 throw State.trap();
}

static int f196(State m, long l0, long l1) {
 final byte[] b = m.bytes;
 int l2 = 0;
 int l3 = 0;
 int l4 = 0;
 int l5 = 0;
 long l6 = 0;
 long l7 = 0;
 L1: {
  L2: {
   L3: {
    L4: {
     if (m.g0 < 16L) { break L4; }
     L5: {
      if (!(l1 == 0L)) { break L5; }
      return 0;
     }
     l3 = (l2 = (int) b[((int) l0) - 58912]) & 255;
     l6 = 1L;
     L6: {
      if (l2 > -1) { break L6; }
      l4 = (b[((int) l0) - 58911] & 0xff) & 63;
      L7: {
       if (l2 + Integer.MIN_VALUE > 2147483615) { break L7; }
       l3 = ((l3 << 6) & 1984) | l4;
       l6 = 2L;
       break L6;
      }
      l5 = (b[((int) l0) - 58910] & 0xff) & 63;
      L8: {
       if (l2 + Integer.MIN_VALUE > 2147483631) { break L8; }
       l3 = ((l4 << 6) | ((l3 << 12) & 61440)) | l5;
       l6 = 3L;
       break L6;
      }
      l3 = ((l5 << 6) | ((l4 << 12) | ((l3 << 18) & 1835008))) | ((b[((int) l0) - 58909] & 0xff) & 63);
      l6 = 4L;
     }
     l5 = 1;
     if (((l3 & 2097119) + -65) + Integer.MIN_VALUE < -2147483622) { break L1; }
     if ((l3 + -48) + Integer.MIN_VALUE < -2147483638) { break L1; }
     if ((l3 + -65296) + Integer.MIN_VALUE < -2147483638) { break L1; }
     l7 = l0 + l6;
     l0 = -52L;
     L9: {
      L10: while (true) {
       if ((l4 = (Words.get32(b, ((int) (l0 + 87412L)) - 58912) == l3) ? 1 : 0) != 0) { break L9; }
       l2 = (l0 != 0L) ? 1 : 0;
       l0 = l0 + 4L;
       if (l2 != 0) { continue L10; }
       break L10;
      }
     }
     if (l4 != 0) { break L1; }
     l2 = 1;
     if (l3 + Integer.MIN_VALUE > -2147483590) { break L3; }
     if (((1L << (l3 & 0xffffffffL)) & 288335929267978240L) == 0L) { break L3; }
     break L2;
    }
    throw State.trap();
   }
   if (l3 == 126) { break L2; }
   if (l3 == 65374) { break L2; }
   l2 = 0;
  }
  L11: {
   if (l1 != l6) { break L11; }
   return 0;
  }
  l5 = 0;
  if (l2 == 0) { break L1; }
  l2 = (l3 = (int) b[((int) l7) - 58912]) & 255;
  L12: {
   if (l3 > -1) { break L12; }
   l4 = (b[((int) l7) - 58911] & 0xff) & 63;
   L13: {
    if (l3 + Integer.MIN_VALUE > 2147483615) { break L13; }
    l2 = ((l2 << 6) & 1984) | l4;
    break L12;
   }
   l5 = (b[((int) l7) - 58910] & 0xff) & 63;
   L14: {
    if (l3 + Integer.MIN_VALUE > 2147483631) { break L14; }
    l2 = ((l4 << 6) | ((l2 << 12) & 61440)) | l5;
    break L12;
   }
   l2 = ((l5 << 6) | ((l4 << 12) | ((l2 << 18) & 1835008))) | ((b[((int) l7) - 58909] & 0xff) & 63);
  }
  l5 = 1;
  if (((l2 & 2097119) + -65) + Integer.MIN_VALUE < -2147483622) { break L1; }
  l5 = (((l2 + -48) + Integer.MIN_VALUE < -2147483638) | ((l2 + -65296) + Integer.MIN_VALUE < -2147483638)) ? 1 : 0;
 }
 return l5;
}

static void f197(State m, long l0, long l1, long l2, long l3, long l4) {
 final byte[] b = m.bytes;
 int l5 = 0;
 int l6 = 0;
 int l7 = 0;
 int l8 = 0;
 int l9 = 0;
 long l10 = 0;
 long l11 = 0;
 L1: {
  L2: {
   if (m.g0 < 16L) { break L2; }
   L3: {
    L4: while (true) {
     if (l2 == 0L) { break L3; }
     l6 = (l5 = (int) b[((int) l1) - 58912]) & 255;
     l10 = 1L;
     L5: {
      if (l5 > -1) { break L5; }
      l7 = (b[((int) l1) - 58911] & 0xff) & 63;
      L6: {
       if (l5 + Integer.MIN_VALUE > 2147483615) { break L6; }
       l6 = ((l6 << 6) & 1984) | l7;
       l10 = 2L;
       break L5;
      }
      l8 = (b[((int) l1) - 58910] & 0xff) & 63;
      L7: {
       if (l5 + Integer.MIN_VALUE > 2147483631) { break L7; }
       l6 = ((l7 << 6) | ((l6 << 12) & 61440)) | l8;
       l10 = 3L;
       break L5;
      }
      l6 = ((l8 << 6) | ((l7 << 12) | ((l6 << 18) & 1835008))) | ((b[((int) l1) - 58909] & 0xff) & 63);
      l10 = 4L;
     }
     if (l4 == 0L) { break L1; }
     l5 = (l7 = (int) b[((int) l3) - 58912]) & 255;
     l11 = 1L;
     L8: {
      if (l7 > -1) { break L8; }
      l8 = (b[((int) l3) - 58911] & 0xff) & 63;
      L9: {
       if (l7 + Integer.MIN_VALUE > 2147483615) { break L9; }
       l5 = ((l5 << 6) & 1984) | l8;
       l11 = 2L;
       break L8;
      }
      l9 = (b[((int) l3) - 58910] & 0xff) & 63;
      L10: {
       if (l7 + Integer.MIN_VALUE > 2147483631) { break L10; }
       l5 = ((l8 << 6) | ((l5 << 12) & 61440)) | l9;
       l11 = 3L;
       break L8;
      }
      l5 = ((l9 << 6) | ((l8 << 12) | ((l5 << 18) & 1835008))) | ((b[((int) l3) - 58909] & 0xff) & 63);
      l11 = 4L;
     }
     l2 = l2 - l10;
     l1 = l1 + l10;
     l4 = l4 - l11;
     l3 = l3 + l11;
     if (l6 == l5) { continue L4; }
     break L4;
    }
    Words.put64(b, ((int) l0) - 58896, 0L);
    Words.put64(b, ((int) l0) - 58904, 0L);
    Words.put64(b, ((int) l0) - 58912, 0L);
    return;
   }
   Words.put64(b, ((int) l0) - 58912, 1L);
   Words.put64(b, ((int) (l0 + 16L)) - 58912, l4);
   Words.put64(b, ((int) (l0 + 8L)) - 58912, l3);
   return;
  }
  throw State.trap();
 }
 Words.put64(b, ((int) l0) - 58896, 0L);
 Words.put64(b, ((int) l0) - 58904, 0L);
 Words.put64(b, ((int) l0) - 58912, 0L);
}

static int f198(State m, long l0, long l1, long l2) {
 final byte[] b = m.bytes;
 long l3 = 0;
 long l4 = 0;
 long l5 = 0;
 long l6 = 0;
 long l7 = 0;
 int l8 = 0;
 int l9 = 0;
 int l10 = 0;
 int l11 = 0;
 int l12 = 0;
 int l13 = 0;
 m.g0 = l3 = m.g0 - 80L;
 L1: {
  L2: {
   L3: {
    L4: {
     if ((l3 = l3) < 16L) { break L4; }
     l4 = Words.get64(b, ((int) l2) - 58864);
     l5 = Words.get64(b, ((int) l2) - 58872);
     Words.put32(b, ((int) l3) - 58896, l8 = Words.get32(b, ((int) l2) - 58896));
     Words.put64(b, ((int) l3) - 58864, l4);
     Words.put64(b, ((int) l3) - 58872, l5);
     Words.put64(b, ((int) l3) - 58904, Words.get64(b, ((int) l2) - 58904));
     Words.put64(b, ((int) l3) - 58912, Words.get64(b, ((int) l2) - 58912));
     Words.put64(b, ((int) l3) - 58892, Words.get64(b, ((int) l2) - 58892));
     Words.put64(b, ((int) l3) - 58884, Words.get64(b, ((int) l2) - 58884));
     Words.put32(b, ((int) l3) - 58876, Words.get32(b, ((int) l2) - 58876));
     l9 = 0;
     if (f200(m, l3) == 0) { break L1; }
     l2 = -672L;
     L5: {
      L6: while (true) {
       L7: {
        if ((l6 = l2 + 16L) != 0L) { break L7; }
        if (l1 == 0L) { break L3; }
        l10 = 20;
        l2 = l1;
        break L5;
       }
       Words.put64(b, ((int) l3) - 58840, 0L);
       Words.put64(b, ((int) l3) - 58848, 0L);
       Words.put64(b, ((int) l3) - 58856, 0L);
       f197(m, l3 + 56L, Words.get64(b, ((int) (l2 + 88344L)) - 58912), Words.get64(b, ((int) (l2 + 88352L)) - 58912), l5, l4);
       l9 = 1;
       l2 = l6;
       if ((b[((int) l3) - 58856] & 0xff) != 1) { continue L6; }
       break L1;
      }
     }
     L8: while (true) {
      L9: {
       if ((l11 = (int) b[((int) (l0 + (l6 = l2 + -1L))) - 58912]) >= 0) { break L9; }
       l6 = -2L;
       L10: {
        if ((b[((int) ((l7 = l0 + l2) + -2L)) - 58912] & 0xff) + Integer.MIN_VALUE > -2147483457) { break L10; }
        l6 = ((b[((int) (l7 + -3L)) - 58912] & 0xff) + Integer.MIN_VALUE > -2147483457) ? -3L : -4L;
       }
       l11 = (l9 = (int) b[((int) (l7 = l0 + (l6 = l6 + l2))) - 58912]) & 255;
       if (l9 > -1) { break L9; }
       l12 = (b[((int) l7) - 58911] & 0xff) & 63;
       L11: {
        if (l9 + Integer.MIN_VALUE > 2147483615) { break L11; }
        l11 = ((l11 << 6) & 1984) | l12;
        break L9;
       }
       l13 = (b[((int) l7) - 58910] & 0xff) & 63;
       L12: {
        if (l9 + Integer.MIN_VALUE > 2147483631) { break L12; }
        l11 = ((l12 << 6) | ((l11 << 12) & 61440)) | l13;
        break L9;
       }
       l11 = ((l13 << 6) | ((l12 << 12) | ((l11 << 18) & 1835008))) | ((b[((int) l7) - 58909] & 0xff) & 63);
      }
      Words.put64(b, ((int) l3) - 58840, 0L);
      Words.put64(b, ((int) l3) - 58848, 0L);
      Words.put64(b, ((int) l3) - 58856, 0L);
      f204(m, l3 + 56L, 88568L, 6L, l0, l2);
      l9 = 1;
      if ((b[((int) l3) - 58856] & 0xff) == 1) { break L1; }
      L13: {
       L14: {
        if (l11 == 26159) { break L14; }
        if (l11 == 28858) { break L14; }
        if (l11 == 20026) { break L14; }
        if (l11 == 45) { break L14; }
        if (l11 == 32) { break L14; }
        if (l11 == 33287) { break L14; }
        if (l11 == 19982) { break L14; }
        if (l11 == 21644) { break L14; }
        if (l11 == 65292) { break L14; }
        if (l11 == 12289) { break L14; }
        if ((l11 + -48) + Integer.MIN_VALUE < -2147483636) { break L14; }
        if ((l11 + -65296) + Integer.MIN_VALUE >= -2147483636) { break L13; }
       }
       if (l6 == 0L) { break L13; }
       l2 = l6;
       if (((l10 = l10 + -1) & 255) != 0) { continue L8; }
      }
      break L8;
     }
     l9 = 0;
     if (l8 == 45) { break L1; }
     if (((int) b[((int) ((l2 = l0 + l1) + -1L)) - 58912]) > -1) { break L2; }
     l6 = -2L;
     L15: {
      if ((b[((int) (l2 + -2L)) - 58912] & 0xff) + Integer.MIN_VALUE > -2147483457) { break L15; }
      l6 = ((b[((int) (l2 + -3L)) - 58912] & 0xff) + Integer.MIN_VALUE > -2147483457) ? -3L : -4L;
     }
     if ((l9 = (int) b[((int) (l2 = (l0 + l6) + l1)) - 58912]) > -1) { break L2; }
     if (l9 + Integer.MIN_VALUE < 2147483616) { break L2; }
     l11 = l9 & 255;
     l10 = (b[((int) l2) - 58911] & 0xff) & 63;
     l8 = (b[((int) l2) - 58910] & 0xff) & 63;
     L16: {
      L17: {
       if (l9 + Integer.MIN_VALUE > 2147483631) { break L17; }
       l11 = ((l10 << 6) | ((l11 << 12) & 61440)) | l8;
       break L16;
      }
      l11 = ((l8 << 6) | ((l10 << 12) | ((l11 << 18) & 1835008))) | ((b[((int) l2) - 58909] & 0xff) & 63);
     }
     l9 = 1;
     if (l11 == 20197) { break L1; }
     break L2;
    }
    throw State.trap();
   }
   l9 = 0;
   if (l8 == 45) { break L1; }
  }
  Words.put64(b, ((int) l3) - 58840, 0L);
  Words.put64(b, ((int) l3) - 58848, 0L);
  Words.put64(b, ((int) l3) - 58856, 0L);
  f204(m, l3 + 56L, 88704L, 6L, l0, l1);
  l9 = 1;
  if ((b[((int) l3) - 58856] & 0xff) == 1) { break L1; }
  Words.put64(b, ((int) l3) - 58840, 0L);
  Words.put64(b, ((int) l3) - 58848, 0L);
  Words.put64(b, ((int) l3) - 58856, 0L);
  f204(m, l3 + 56L, 88710L, 9L, l0, l1);
  l9 = 1;
  if ((b[((int) l3) - 58856] & 0xff) == 1) { break L1; }
  Words.put64(b, ((int) l3) - 58840, 0L);
  Words.put64(b, ((int) l3) - 58848, 0L);
  Words.put64(b, ((int) l3) - 58856, 0L);
  f204(m, l3 + 56L, 88719L, 9L, l0, l1);
  l9 = 1;
  if ((b[((int) l3) - 58856] & 0xff) == 1) { break L1; }
  Words.put64(b, ((int) l3) - 58840, 0L);
  Words.put64(b, ((int) l3) - 58848, 0L);
  Words.put64(b, ((int) l3) - 58856, 0L);
  f204(m, l3 + 56L, 88728L, 9L, l0, l1);
  l9 = 1;
  if ((b[((int) l3) - 58856] & 0xff) == 1) { break L1; }
  Words.put64(b, ((int) l3) - 58840, 0L);
  Words.put64(b, ((int) l3) - 58848, 0L);
  Words.put64(b, ((int) l3) - 58856, 0L);
  f204(m, l3 + 56L, 88737L, 9L, l0, l1);
  l9 = 1;
  if ((b[((int) l3) - 58856] & 0xff) == 1) { break L1; }
  Words.put64(b, ((int) l3) - 58840, 0L);
  Words.put64(b, ((int) l3) - 58848, 0L);
  Words.put64(b, ((int) l3) - 58856, 0L);
  f204(m, l3 + 56L, 88746L, 9L, l0, l1);
  l9 = 1;
  if ((b[((int) l3) - 58856] & 0xff) == 1) { break L1; }
  Words.put64(b, ((int) l3) - 58840, 0L);
  Words.put64(b, ((int) l3) - 58848, 0L);
  Words.put64(b, ((int) l3) - 58856, 0L);
  f204(m, l3 + 56L, 88755L, 6L, l0, l1);
  l9 = 1;
  if ((b[((int) l3) - 58856] & 0xff) == 1) { break L1; }
  Words.put64(b, ((int) l3) - 58840, 0L);
  Words.put64(b, ((int) l3) - 58848, 0L);
  Words.put64(b, ((int) l3) - 58856, 0L);
  f204(m, l3 + 56L, 88761L, 6L, l0, l1);
  l9 = 1;
  if ((b[((int) l3) - 58856] & 0xff) == 1) { break L1; }
  Words.put64(b, ((int) l3) - 58840, 0L);
  Words.put64(b, ((int) l3) - 58848, 0L);
  Words.put64(b, ((int) l3) - 58856, 0L);
  f197(m, l3 + 56L, 88928L, 9L, l5, l4);
  l9 = 1;
  if ((b[((int) l3) - 58856] & 0xff) == 1) { break L1; }
  Words.put64(b, ((int) l3) - 58840, 0L);
  Words.put64(b, ((int) l3) - 58848, 0L);
  Words.put64(b, ((int) l3) - 58856, 0L);
  f197(m, l3 + 56L, 88937L, 6L, l5, l4);
  l9 = 1;
  if ((b[((int) l3) - 58856] & 0xff) == 1) { break L1; }
  Words.put64(b, ((int) l3) - 58840, 0L);
  Words.put64(b, ((int) l3) - 58848, 0L);
  Words.put64(b, ((int) l3) - 58856, 0L);
  f197(m, l3 + 56L, 88943L, 6L, l5, l4);
  l9 = 1;
  if ((b[((int) l3) - 58856] & 0xff) == 1) { break L1; }
  Words.put64(b, ((int) l3) - 58840, 0L);
  Words.put64(b, ((int) l3) - 58848, 0L);
  Words.put64(b, ((int) l3) - 58856, 0L);
  f197(m, l3 + 56L, 88949L, 6L, l5, l4);
  l9 = 1;
  if ((b[((int) l3) - 58856] & 0xff) == 1) { break L1; }
  Words.put64(b, ((int) l3) - 58840, 0L);
  Words.put64(b, ((int) l3) - 58848, 0L);
  Words.put64(b, ((int) l3) - 58856, 0L);
  f197(m, l3 + 56L, 88955L, 6L, l5, l4);
  l9 = 1;
  if ((b[((int) l3) - 58856] & 0xff) == 1) { break L1; }
  Words.put64(b, ((int) l3) - 58840, 0L);
  Words.put64(b, ((int) l3) - 58848, 0L);
  Words.put64(b, ((int) l3) - 58856, 0L);
  f197(m, l3 + 56L, 88961L, 6L, l5, l4);
  l9 = 1;
  if ((b[((int) l3) - 58856] & 0xff) == 1) { break L1; }
  Words.put64(b, ((int) l3) - 58840, 0L);
  Words.put64(b, ((int) l3) - 58848, 0L);
  Words.put64(b, ((int) l3) - 58856, 0L);
  f197(m, l3 + 56L, 88967L, 6L, l5, l4);
  l9 = 1;
  if ((b[((int) l3) - 58856] & 0xff) == 1) { break L1; }
  Words.put64(b, ((int) l3) - 58840, 0L);
  Words.put64(b, ((int) l3) - 58848, 0L);
  Words.put64(b, ((int) l3) - 58856, 0L);
  f197(m, l3 + 56L, 88973L, 6L, l5, l4);
  l9 = 1;
  if ((b[((int) l3) - 58856] & 0xff) == 1) { break L1; }
  Words.put64(b, ((int) l3) - 58840, 0L);
  Words.put64(b, ((int) l3) - 58848, 0L);
  Words.put64(b, ((int) l3) - 58856, 0L);
  f197(m, l3 + 56L, 88979L, 6L, l5, l4);
  l9 = 1;
  if ((b[((int) l3) - 58856] & 0xff) == 1) { break L1; }
  Words.put64(b, ((int) l3) - 58840, 0L);
  Words.put64(b, ((int) l3) - 58848, 0L);
  Words.put64(b, ((int) l3) - 58856, 0L);
  f197(m, l3 + 56L, 88985L, 6L, l5, l4);
  l9 = ((b[((int) l3) - 58856] & 0xff) == 1) ? 1 : 0;
 }
 m.g0 = l3 + 80L;
 return l9;
}

static int f199(State m, int l0, long l1, long l2) {
 final byte[] b = m.bytes;
 long l3 = 0;
 long l4 = 0;
 long l5 = 0;
 long l6 = 0;
 int l7 = 0;
 int l8 = 0;
 int l9 = 0;
 int l10 = 0;
 m.g0 = l3 = m.g0 - 16L;
 L1: {
  if ((l4 = l3) < 16L) { break L1; }
  l5 = l0 & 0xffffffffL;
  l6 = 0L;
  L2: {
   L3: while (true) {
    if ((l7 = (l2 == 0L) ? 1 : 0) != 0) { break L2; }
    l8 = (l0 = (int) b[((int) l1) - 58912]) & 255;
    l3 = 1L;
    L4: {
     L5: {
      L6: {
       L7: {
        if (l0 > -1) { break L7; }
        l9 = (b[((int) l1) - 58911] & 0xff) & 63;
        if (l0 + Integer.MIN_VALUE > 2147483615) { break L6; }
        l8 = ((l8 << 6) & 1984) | l9;
        l3 = 2L;
       }
       l6 = l6 * 10L;
       l2 = l2 - l3;
       l1 = l1 + l3;
       break L5;
      }
      l10 = (b[((int) l1) - 58910] & 0xff) & 63;
      L8: {
       L9: {
        if (l0 + Integer.MIN_VALUE > 2147483631) { break L9; }
        l8 = ((l9 << 6) | ((l8 << 12) & 61440)) | l10;
        l3 = 3L;
        break L8;
       }
       l8 = ((l10 << 6) | ((l9 << 12) | ((l8 << 18) & 1835008))) | ((b[((int) l1) - 58909] & 0xff) & 63);
       l3 = 4L;
      }
      l6 = l6 * 10L;
      l2 = l2 - l3;
      l1 = l1 + l3;
      l3 = 1L;
      if (l8 == 24186) { break L4; }
     }
     l3 = -44L;
     L10: {
      L11: while (true) {
       if ((l9 = Words.get32(b, ((int) (l3 + 87508L)) - 58912)) == l8) { break L10; }
       l0 = (l3 != 0L) ? 1 : 0;
       l3 = l3 + 4L;
       if (l0 != 0) { continue L11; }
       break L11;
      }
     }
     L12: {
      L13: {
       if (l9 != l8) { break L13; }
       Core2.f63(m, l4, l8);
       l0 = b[((int) l4) - 58911] & 0xff;
       l8 = b[((int) l4) - 58912] & 0xff;
       break L12;
      }
      Core1.f24(m, l4 + 8L, l8);
      l0 = b[((int) l4) - 58903] & 0xff;
      l8 = b[((int) l4) - 58904] & 0xff;
     }
     l3 = ((((l8 & 255) == 1) ? l0 : 0) & 0xffffffffL) & 255L;
    }
    if ((l6 = l3 + l6) + Long.MIN_VALUE <= l5 + Long.MIN_VALUE) { continue L3; }
    break L3;
   }
  }
  m.g0 = l4 + 16L;
  final int t14 = l7;
  return t14;
 }
 throw State.trap();
}

static int f200(State m, long l0) {
 final byte[] b = m.bytes;
 long l1 = 0;
 long l2 = 0;
 long l3 = 0;
 long l4 = 0;
 long l5 = 0;
 int l6 = 0;
 int l7 = 0;
 L1: {
  if (m.g0 < 16L) { break L1; }
  l1 = Words.get64(b, ((int) l0) - 58880);
  l2 = Words.get64(b, ((int) l0) - 58888);
  L2: {
   L3: {
    if ((l3 = Words.get64(b, ((int) l0) - 58904)) == 0L) { break L3; }
    L4: {
     L5: {
      if ((l6 = (int) b[((int) (l4 = Words.get64(b, ((int) l0) - 58912))) - 58912]) <= -1) { break L5; }
      l0 = 1L;
      break L4;
     }
     L6: {
      if (l6 + Integer.MIN_VALUE >= 2147483616) { break L6; }
      l0 = 2L;
      break L4;
     }
     l0 = (l6 + Integer.MIN_VALUE < 2147483632) ? 3L : 4L;
    }
    if (l3 == l0) { break L3; }
    L7: {
     L8: {
      if ((l6 = (int) b[((int) (l5 = l4 + l0)) - 58912]) <= -1) { break L8; }
      l4 = 1L;
      break L7;
     }
     L9: {
      if (l6 + Integer.MIN_VALUE >= 2147483616) { break L9; }
      l4 = 2L;
      break L7;
     }
     l4 = (l6 + Integer.MIN_VALUE < 2147483632) ? 3L : 4L;
    }
    if (l3 == (l0 = l0 + l4)) { break L3; }
    L10: {
     L11: {
      if ((l6 = (int) b[((int) (l5 + l4)) - 58912]) <= -1) { break L11; }
      l4 = 1L;
      break L10;
     }
     L12: {
      if (l6 + Integer.MIN_VALUE >= 2147483616) { break L12; }
      l4 = 2L;
      break L10;
     }
     l4 = (l6 + Integer.MIN_VALUE < 2147483632) ? 3L : 4L;
    }
    l6 = 0;
    if (l3 != (l0 + l4)) { break L2; }
   }
   l6 = 1;
   if (l1 == 0L) { break L2; }
   L13: {
    L14: {
     if ((l7 = (int) b[((int) l2) - 58912]) <= -1) { break L14; }
     l0 = 1L;
     break L13;
    }
    L15: {
     if (l7 + Integer.MIN_VALUE >= 2147483616) { break L15; }
     l0 = 2L;
     break L13;
    }
    l0 = (l7 + Integer.MIN_VALUE < 2147483632) ? 3L : 4L;
   }
   if (l1 == l0) { break L2; }
   L16: {
    L17: {
     if ((l7 = (int) b[((int) (l2 = l2 + l0)) - 58912]) <= -1) { break L17; }
     l3 = 1L;
     break L16;
    }
    L18: {
     if (l7 + Integer.MIN_VALUE >= 2147483616) { break L18; }
     l3 = 2L;
     break L16;
    }
    l3 = (l7 + Integer.MIN_VALUE < 2147483632) ? 3L : 4L;
   }
   if (l1 == (l0 = l0 + l3)) { break L2; }
   L19: {
    L20: {
     if ((l6 = (int) b[((int) (l2 + l3)) - 58912]) <= -1) { break L20; }
     l3 = 1L;
     break L19;
    }
    L21: {
     if (l6 + Integer.MIN_VALUE >= 2147483616) { break L21; }
     l3 = 2L;
     break L19;
    }
    l3 = (l6 + Integer.MIN_VALUE < 2147483632) ? 3L : 4L;
   }
   l6 = (l1 == (l0 + l3)) ? 1 : 0;
  }
  final int t22 = l6;
  return t22;
 }
 throw State.trap();
}

static void f201(State m, long l0, long l1, long l2) {
 final byte[] b = m.bytes;
 long l3 = 0;
 long l4 = 0;
 long l5 = 0;
 long l6 = 0;
 int l7 = 0;
 int l8 = 0;
 int l9 = 0;
 int l10 = 0;
 m.g0 = l3 = m.g0 - 16L;
 L1: {
  if ((l4 = l3) < 16L) { break L1; }
  l3 = 0L;
  L2: {
   L3: while (true) {
    L4: {
     if (!(l2 == 0L)) { break L4; }
     l7 = 1;
     break L2;
    }
    l8 = (l7 = (int) b[((int) l1) - 58912]) & 255;
    l5 = 1L;
    L5: {
     if (l7 > -1) { break L5; }
     l9 = (b[((int) l1) - 58911] & 0xff) & 63;
     L6: {
      if (l7 + Integer.MIN_VALUE > 2147483615) { break L6; }
      l8 = ((l8 << 6) & 1984) | l9;
      l5 = 2L;
      break L5;
     }
     l10 = (b[((int) l1) - 58910] & 0xff) & 63;
     L7: {
      if (l7 + Integer.MIN_VALUE > 2147483631) { break L7; }
      l8 = ((l9 << 6) | ((l8 << 12) & 61440)) | l10;
      l5 = 3L;
      break L5;
     }
     l8 = ((l10 << 6) | ((l9 << 12) | ((l8 << 18) & 1835008))) | ((b[((int) l1) - 58909] & 0xff) & 63);
     l5 = 4L;
    }
    L8: {
     if (l8 == 44) { break L8; }
     if (l8 == 65292) { break L8; }
     l6 = l3 * 10L;
     l3 = 1L;
     L9: {
      if (l8 == 24186) { break L9; }
      l3 = -44L;
      L10: {
       L11: while (true) {
        if ((l9 = Words.get32(b, ((int) (l3 + 87508L)) - 58912)) == l8) { break L10; }
        l7 = (l3 != 0L) ? 1 : 0;
        l3 = l3 + 4L;
        if (l7 != 0) { continue L11; }
        break L11;
       }
      }
      L12: {
       L13: {
        if (l9 != l8) { break L13; }
        Core2.f63(m, l4, l8);
        l7 = b[((int) l4) - 58911] & 0xff;
        l8 = b[((int) l4) - 58912] & 0xff;
        break L12;
       }
       Core1.f24(m, l4 + 8L, l8);
       l7 = b[((int) l4) - 58903] & 0xff;
       l8 = b[((int) l4) - 58904] & 0xff;
      }
      l3 = ((((l8 & 255) == 1) ? l7 : 0) & 0xffffffffL) & 255L;
     }
     l3 = l3 + l6;
    }
    l2 = l2 - l5;
    l1 = l1 + l5;
    if (l3 + Long.MIN_VALUE < -9213372036854775808L) { continue L3; }
    break L3;
   }
   l7 = 0;
   l3 = 0L;
  }
  Words.put64(b, ((int) l0) - 58904, l3);
  b[((int) l0) - 58912] = (byte) l7;
  m.g0 = l4 + 16L;
  return;
 }
 throw State.trap();
}

static int f202_1(State m, long l0, long l1, long l2, long l3, long l4, long l5, long l6, long l7, long l8, long l9, long l10, long l11, long l12, int l14, int l15, int l16, int l17, int l18, int l19) {
 final byte[] b = m.bytes;
 int exit = 0;
 PART: {
  L7: {
   L8: {
    if ((l16 + -48) + Integer.MIN_VALUE < -2147483638) { break L8; }
    if ((l16 + -65296) + Integer.MIN_VALUE > -2147483639) { break L7; }
   }
   L9: {
    if (l2 == 0L) { break L9; }
    L10: {
     if ((l16 = (int) b[((int) ((l5 = l1 + l2) + -1L)) - 58912]) >= 0) { break L10; }
     l8 = -2L;
     L11: {
      if ((b[((int) (l5 + -2L)) - 58912] & 0xff) + Integer.MIN_VALUE > -2147483457) { break L11; }
      l8 = ((b[((int) (l5 + -3L)) - 58912] & 0xff) + Integer.MIN_VALUE > -2147483457) ? -3L : -4L;
     }
     l16 = (l17 = (int) b[((int) (l5 = (l1 + l8) + l2)) - 58912]) & 255;
     if (l17 > -1) { break L10; }
     l18 = (b[((int) l5) - 58911] & 0xff) & 63;
     L12: {
      if (l17 + Integer.MIN_VALUE > 2147483615) { break L12; }
      l16 = ((l16 << 6) & 1984) | l18;
      break L10;
     }
     l19 = (b[((int) l5) - 58910] & 0xff) & 63;
     L13: {
      if (l17 + Integer.MIN_VALUE > 2147483631) { break L13; }
      l16 = ((l18 << 6) | ((l16 << 12) & 61440)) | l19;
      break L10;
     }
     l16 = ((l19 << 6) | ((l18 << 12) | ((l16 << 18) & 1835008))) | ((b[((int) l5) - 58909] & 0xff) & 63);
    }
    if ((l16 + -48) + Integer.MIN_VALUE < -2147483638) { break L7; }
    if ((l16 + -65296) + Integer.MIN_VALUE < -2147483638) { break L7; }
   }
   l9 = 0L;
   Words.put64(b, ((int) l6) - 58464, 0L);
   Words.put64(b, ((int) l6) - 58456, 0L);
   Words.put64(b, ((int) l6) - 58448, 0L);
   Words.put64(b, ((int) l6) - 58440, 0L);
   Words.put64(b, ((int) l6) - 58816, 0L);
   Words.put64(b, ((int) l6) - 58824, 83372L);
   Words.put64(b, ((int) l6) - 58808, 0L);
   Words.put64(b, ((int) l6) - 58776, 0L);
   Words.put64(b, ((int) l6) - 58784, 83372L);
   Words.put64(b, ((int) l6) - 58792, 0L);
   Words.put64(b, ((int) l6) - 58800, 83372L);
   Words.put64(b, ((int) l6) - 58768, 0L);
   Words.put64(b, ((int) l6) - 58744, 83372L);
   Words.put64(b, ((int) l6) - 58752, 0L);
   Words.put64(b, ((int) l6) - 58760, 83372L);
   Words.put64(b, ((int) l6) - 58856, 0L);
   Words.put64(b, ((int) l6) - 58848, 0L);
   Words.put64(b, ((int) l6) - 58840, 0L);
   Words.put64(b, ((int) l6) - 58832, 0L);
   Words.put64(b, ((int) l6) - 58728, 0L);
   Words.put64(b, ((int) l6) - 58736, 0L);
   Words.put64(b, ((int) l6) - 58704, 83372L);
   Words.put64(b, ((int) l6) - 58712, 0L);
   Words.put64(b, ((int) l6) - 58720, 83372L);
   Words.put64(b, ((int) l6) - 58696, 0L);
   Words.put64(b, ((int) l6) - 58688, 0L);
   Words.put64(b, ((int) l6) - 58664, 83372L);
   Words.put64(b, ((int) l6) - 58672, 0L);
   Words.put64(b, ((int) l6) - 58680, 83372L);
   Words.put64(b, ((int) l6) - 58656, 0L);
   Words.put64(b, ((int) l6) - 58648, 0L);
   Words.put64(b, ((int) l6) - 58624, 83372L);
   Words.put64(b, ((int) l6) - 58632, 0L);
   Words.put64(b, ((int) l6) - 58640, 83372L);
   Words.put64(b, ((int) l6) - 58608, 0L);
   Words.put64(b, ((int) l6) - 58616, 0L);
   Words.put64(b, ((int) l6) - 58600, 83372L);
   Words.put64(b, ((int) l6) - 58592, 0L);
   Words.put64(b, ((int) l6) - 58584, 83372L);
   Words.put64(b, ((int) l6) - 58568, 0L);
   Words.put64(b, ((int) l6) - 58576, 0L);
   Words.put64(b, ((int) l6) - 58544, 83372L);
   Words.put64(b, ((int) l6) - 58552, 0L);
   Words.put64(b, ((int) l6) - 58560, 83372L);
   Words.put64(b, ((int) l6) - 58528, 0L);
   Words.put64(b, ((int) l6) - 58536, 0L);
   Words.put64(b, ((int) l6) - 58504, 83372L);
   Words.put64(b, ((int) l6) - 58512, 0L);
   Words.put64(b, ((int) l6) - 58520, 83372L);
   Words.put64(b, ((int) l6) - 58488, 0L);
   Words.put64(b, ((int) l6) - 58496, 0L);
   Words.put64(b, ((int) l6) - 58472, 0L);
   Words.put64(b, ((int) l6) - 58480, 83372L);
   l10 = l3;
   l11 = l4;
   L14: while (true) {
    l7 = l10;
    l12 = l11;
    L15: {
     L16: {
      L17: while (true) {
       l5 = l7;
       if ((l17 = ((l8 = l12) == 0L) ? 1 : 0) != 0) { break L16; }
       l7 = 1L;
       l14 = l16 = (l15 = (int) b[((int) l5) - 58912]) & 255;
       L18: {
        if (l15 > -1) { break L18; }
        l14 = (b[((int) l5) - 58911] & 0xff) & 63;
        L19: {
         if (l15 + Integer.MIN_VALUE > 2147483615) { break L19; }
         l14 = ((l16 << 6) & 1984) | l14;
         l7 = 2L;
         break L18;
        }
        l18 = (b[((int) l5) - 58910] & 0xff) & 63;
        L20: {
         if (l15 + Integer.MIN_VALUE > 2147483631) { break L20; }
         l14 = ((l14 << 6) | ((l16 << 12) & 61440)) | l18;
         l7 = 3L;
         break L18;
        }
        l14 = ((l18 << 6) | ((l14 << 12) | ((l16 << 18) & 1835008))) | ((b[((int) l5) - 58909] & 0xff) & 63);
        l7 = 4L;
       }
       l12 = l8 - l7;
       l7 = l5 + l7;
       if ((l14 + -48) + Integer.MIN_VALUE < -2147483638) { continue L17; }
       if ((l14 + -65296) + Integer.MIN_VALUE < -2147483638) { continue L17; }
       break L17;
      }
      l7 = 1L;
      L21: {
       if (l15 > -1) { break L21; }
       l14 = (b[((int) l5) - 58911] & 0xff) & 63;
       L22: {
        if (l15 + Integer.MIN_VALUE > 2147483615) { break L22; }
        l16 = ((l16 << 6) & 1984) | l14;
        l7 = 2L;
        break L21;
       }
       l18 = (b[((int) l5) - 58910] & 0xff) & 63;
       L23: {
        if (l15 + Integer.MIN_VALUE > 2147483631) { break L23; }
        l16 = ((l14 << 6) | ((l16 << 12) & 61440)) | l18;
        l7 = 3L;
        break L21;
       }
       l16 = ((l18 << 6) | ((l14 << 12) | ((l16 << 18) & 1835008))) | ((b[((int) l5) - 58909] & 0xff) & 63);
       l7 = 4L;
      }
      L24: {
       L25: {
        if (l16 + Integer.MIN_VALUE > -2147483602) { break L25; }
        l14 = 1;
        if (((1L << (l16 & 0xffffffffL)) & 105557411233792L) != 0L) { break L24; }
       }
       l14 = 0;
      }
      if (l8 == l7) { break L16; }
      if (l14 == 0) { break L16; }
      l18 = (l14 = (int) b[((int) (l7 = l5 + l7)) - 58912]) & 255;
      L26: {
       if (l14 > -1) { break L26; }
       l15 = (b[((int) l7) - 58911] & 0xff) & 63;
       L27: {
        if (l14 + Integer.MIN_VALUE > 2147483615) { break L27; }
        l18 = ((l18 << 6) & 1984) | l15;
        break L26;
       }
       l19 = (b[((int) l7) - 58910] & 0xff) & 63;
       L28: {
        if (l14 + Integer.MIN_VALUE > 2147483631) { break L28; }
        l18 = ((l15 << 6) | ((l18 << 12) & 61440)) | l19;
        break L26;
       }
       l18 = ((l19 << 6) | ((l15 << 12) | ((l18 << 18) & 1835008))) | ((b[((int) l7) - 58909] & 0xff) & 63);
      }
      l14 = 1;
      L29: {
       if ((l18 + -48) + Integer.MIN_VALUE >= -2147483638) { break L29; }
       l15 = 1;
       break L15;
      }
      l15 = 1;
      if ((l18 + -65296) + Integer.MIN_VALUE < -2147483638) { break L15; }
     }
     l16 = 0;
     l14 = 0;
     l15 = 0;
    }
    Words.put64(b, ((int) (l7 = (l6 + 88L) + (l9 * 40L))) - 58904, l11 - l8);
    Words.put64(b, ((int) l7) - 58912, l10);
    Words.put64(b, ((int) (l7 + 32L)) - 58912, l8);
    Words.put64(b, ((int) (l7 + 24L)) - 58912, l5);
    Words.put32(b, ((int) (l7 + 20L)) - 58912, l16);
    Words.put32(b, ((int) (l7 + 16L)) - 58912, l15);
    l9 = l9 + 1L;
    L30: {
     L31: {
      if (l14 != 0) { break L31; }
      l5 = l9;
      break L30;
     }
     L32: {
      L33: {
       if (l17 == 0) { break L33; }
       l11 = 0L;
       l10 = l5;
       break L32;
      }
      L34: {
       L35: {
        if ((l14 = (int) b[((int) l5) - 58912]) <= -1) { break L35; }
        l7 = 1L;
        break L34;
       }
       L36: {
        if (l14 + Integer.MIN_VALUE >= 2147483616) { break L36; }
        l7 = 2L;
        break L34;
       }
       l7 = (l14 + Integer.MIN_VALUE < 2147483632) ? 3L : 4L;
      }
      l11 = l8 - l7;
      l10 = l5 + l7;
     }
     l5 = 9L;
     if (l9 != 9L) { continue L14; }
    }
    break L14;
   }
   f207(m, l6 + 56L, l1, l2, 0, l6 + 88L, l5, Words.get64(b, ((int) ((l7 = (l6 + 88L) + (l5 * 40L)) + -16L)) - 58912), Words.get64(b, ((int) (l7 + -8L)) - 58912));
   l7 = l3;
   l8 = l4;
   L37: {
    L38: {
     if ((b[((int) l6) - 58856] & 0xff) != 1) { break L38; }
     Words.put64(b, ((int) l6) - 58864, Words.get64(b, ((int) l6) - 58832));
     Words.put64(b, ((int) l6) - 58872, Words.get64(b, ((int) l6) - 58840));
     Words.put64(b, ((int) l6) - 58880, Words.get64(b, ((int) l6) - 58848));
     l5 = 1L;
     break L37;
    }
    L39: {
     L40: while (true) {
      l5 = l7;
      if ((l12 = l8) == 0L) { break L39; }
      l14 = (l15 = (int) b[((int) l5) - 58912]) & 255;
      l7 = 1L;
      L41: {
       if (l15 > -1) { break L41; }
       l16 = (b[((int) l5) - 58911] & 0xff) & 63;
       L42: {
        if (l15 + Integer.MIN_VALUE > 2147483615) { break L42; }
        l14 = ((l14 << 6) & 1984) | l16;
        l7 = 2L;
        break L41;
       }
       l17 = (b[((int) l5) - 58910] & 0xff) & 63;
       L43: {
        if (l15 + Integer.MIN_VALUE > 2147483631) { break L43; }
        l14 = ((l16 << 6) | ((l14 << 12) & 61440)) | l17;
        l7 = 3L;
        break L41;
       }
       l14 = ((l17 << 6) | ((l16 << 12) | ((l14 << 18) & 1835008))) | ((b[((int) l5) - 58909] & 0xff) & 63);
       l7 = 4L;
      }
      l8 = l12 - l7;
      l7 = l5 + l7;
      if ((l14 + -48) + Integer.MIN_VALUE < -2147483638) { continue L40; }
      if ((l14 + -65296) + Integer.MIN_VALUE < -2147483638) { continue L40; }
      break L40;
     }
    }
    Core7.f208(m, l6 + 448L, l1, l2, 0, l3, l4 - l12, l5, l12);
    Words.put64(b, ((int) l6) - 58880, Words.get64(b, ((int) l6) - 58456));
    Words.put64(b, ((int) l6) - 58872, Words.get64(b, ((int) l6) - 58448));
    Words.put64(b, ((int) l6) - 58864, Words.get64(b, ((int) l6) - 58440));
    l5 = b[((int) l6) - 58464] & 0xffL;
   }
   Words.put64(b, ((int) l0) - 58912, l5);
   Words.put64(b, ((int) (l0 + 8L)) - 58912, Words.get64(b, ((int) l6) - 58880));
   Words.put64(b, ((int) (l0 + 16L)) - 58912, Words.get64(b, ((int) l6) - 58872));
   Words.put64(b, ((int) (l0 + 24L)) - 58912, Words.get64(b, ((int) l6) - 58864));
   exit = 1; break PART;
  }
 }
 m.kept[0] = l5;
 m.kept[1] = l7;
 m.kept[2] = l8;
 m.kept[3] = l9;
 m.kept[4] = l10;
 m.kept[5] = l11;
 m.kept[6] = l12;
 m.kept[7] = l14;
 m.kept[8] = l15;
 m.kept[9] = l16;
 m.kept[10] = l17;
 m.kept[11] = l18;
 m.kept[12] = l19;
 return exit;
}

static void f202(State m, long l0, long l1, long l2, long l3, long l4) {
 final byte[] b = m.bytes;
 long l5 = 0;
 long l6 = 0;
 long l7 = 0;
 long l8 = 0;
 long l9 = 0;
 long l10 = 0;
 long l11 = 0;
 long l12 = 0;
 long l13 = 0;
 int l14 = 0;
 int l15 = 0;
 int l16 = 0;
 int l17 = 0;
 int l18 = 0;
 int l19 = 0;
 m.g0 = l5 = m.g0 - 480L;
 L1: {
  L2: {
   if ((l6 = l5) < 16L) { break L2; }
   l7 = 0L;
   Words.put64(b, ((int) l6) - 58864, 0L);
   Words.put64(b, ((int) l6) - 58872, 0L);
   Words.put64(b, ((int) l6) - 58880, 0L);
   Words.put64(b, ((int) l6) - 58904, 0L);
   Words.put64(b, ((int) l6) - 58896, 0L);
   Words.put64(b, ((int) l6) - 58888, 0L);
   L3: {
    if (l4 == 0L) { break L3; }
    l16 = l15 = (l14 = (int) b[((int) l3) - 58912]) & 255;
    L4: {
     if (l14 > -1) { break L4; }
     l16 = (b[((int) l3) - 58911] & 0xff) & 63;
     L5: {
      if (l14 + Integer.MIN_VALUE > 2147483615) { break L5; }
      l16 = ((l15 << 6) & 1984) | l16;
      break L4;
     }
     l17 = (b[((int) l3) - 58910] & 0xff) & 63;
     L6: {
      if (l14 + Integer.MIN_VALUE > 2147483631) { break L6; }
      l16 = ((l16 << 6) | ((l15 << 12) & 61440)) | l17;
      break L4;
     }
     l16 = ((l17 << 6) | ((l16 << 12) | ((l15 << 18) & 1835008))) | ((b[((int) l3) - 58909] & 0xff) & 63);
    }
    final int x44 = f202_1(m, l0, l1, l2, l3, l4, l5, l6, l7, l8, l9, l10, l11, l12, l14, l15, l16, l17, l18, l19);
    l5 = m.kept[0];
    l7 = m.kept[1];
    l8 = m.kept[2];
    l9 = m.kept[3];
    l10 = m.kept[4];
    l11 = m.kept[5];
    l12 = m.kept[6];
    l14 = (int) m.kept[7];
    l15 = (int) m.kept[8];
    l16 = (int) m.kept[9];
    l17 = (int) m.kept[10];
    l18 = (int) m.kept[11];
    l19 = (int) m.kept[12];
    switch (x44) {
    case 1: break L1;
    }
    L45: {
     if (l14 > -1) { break L45; }
     l16 = (b[((int) l3) - 58911] & 0xff) & 63;
     L46: {
      if (l14 + Integer.MIN_VALUE > 2147483615) { break L46; }
      l15 = ((l15 << 6) & 1984) | l16;
      break L45;
     }
     l17 = (b[((int) l3) - 58910] & 0xff) & 63;
     L47: {
      if (l14 + Integer.MIN_VALUE > 2147483631) { break L47; }
      l15 = ((l16 << 6) | ((l15 << 12) & 61440)) | l17;
      break L45;
     }
     l15 = ((l17 << 6) | ((l16 << 12) | ((l15 << 18) & 1835008))) | ((b[((int) l3) - 58909] & 0xff) & 63);
    }
    l5 = -44L;
    L48: {
     L49: while (true) {
      if ((l16 = Words.get32(b, ((int) (l5 + 87508L)) - 58912)) == l15) { break L48; }
      l14 = (l5 != 0L) ? 1 : 0;
      l5 = l5 + 4L;
      if (l14 != 0) { continue L49; }
      break L49;
     }
    }
    if (l16 != l15) { break L3; }
    L50: {
     if (l2 == 0L) { break L50; }
     L51: {
      if ((l15 = (int) b[((int) ((l5 = l1 + l2) + -1L)) - 58912]) >= 0) { break L51; }
      l8 = -2L;
      L52: {
       if ((b[((int) (l5 + -2L)) - 58912] & 0xff) + Integer.MIN_VALUE > -2147483457) { break L52; }
       l8 = ((b[((int) (l5 + -3L)) - 58912] & 0xff) + Integer.MIN_VALUE > -2147483457) ? -3L : -4L;
      }
      l15 = (l14 = (int) b[((int) (l5 = (l1 + l8) + l2)) - 58912]) & 255;
      if (l14 > -1) { break L51; }
      l16 = (b[((int) l5) - 58911] & 0xff) & 63;
      L53: {
       if (l14 + Integer.MIN_VALUE > 2147483615) { break L53; }
       l15 = ((l15 << 6) & 1984) | l16;
       break L51;
      }
      l17 = (b[((int) l5) - 58910] & 0xff) & 63;
      L54: {
       if (l14 + Integer.MIN_VALUE > 2147483631) { break L54; }
       l15 = ((l16 << 6) | ((l15 << 12) & 61440)) | l17;
       break L51;
      }
      l15 = ((l17 << 6) | ((l16 << 12) | ((l15 << 18) & 1835008))) | ((b[((int) l5) - 58909] & 0xff) & 63);
     }
     l5 = -44L;
     L55: {
      L56: while (true) {
       if ((l16 = (Words.get32(b, ((int) (l5 + 87508L)) - 58912) == l15) ? 1 : 0) != 0) { break L55; }
       l14 = (l5 != 0L) ? 1 : 0;
       l5 = l5 + 4L;
       if (l14 != 0) { continue L56; }
       break L56;
      }
     }
     if (l16 != 0) { break L3; }
    }
    if (Core7.f209(m, l1, l2) != 0) { break L3; }
    l10 = 0L;
    Words.put64(b, ((int) l6) - 58464, 0L);
    Words.put64(b, ((int) l6) - 58456, 0L);
    Words.put64(b, ((int) l6) - 58448, 0L);
    Words.put64(b, ((int) l6) - 58440, 0L);
    Words.put64(b, ((int) l6) - 58816, 0L);
    Words.put64(b, ((int) l6) - 58824, 83372L);
    Words.put64(b, ((int) l6) - 58808, 0L);
    Words.put64(b, ((int) l6) - 58776, 0L);
    Words.put64(b, ((int) l6) - 58784, 83372L);
    Words.put64(b, ((int) l6) - 58792, 0L);
    Words.put64(b, ((int) l6) - 58800, 83372L);
    Words.put64(b, ((int) l6) - 58768, 0L);
    Words.put64(b, ((int) l6) - 58744, 83372L);
    Words.put64(b, ((int) l6) - 58752, 0L);
    Words.put64(b, ((int) l6) - 58760, 83372L);
    Words.put64(b, ((int) l6) - 58856, 0L);
    Words.put64(b, ((int) l6) - 58848, 0L);
    Words.put64(b, ((int) l6) - 58840, 0L);
    Words.put64(b, ((int) l6) - 58832, 0L);
    Words.put64(b, ((int) l6) - 58728, 0L);
    Words.put64(b, ((int) l6) - 58736, 0L);
    Words.put64(b, ((int) l6) - 58704, 83372L);
    Words.put64(b, ((int) l6) - 58712, 0L);
    Words.put64(b, ((int) l6) - 58720, 83372L);
    Words.put64(b, ((int) l6) - 58696, 0L);
    Words.put64(b, ((int) l6) - 58688, 0L);
    Words.put64(b, ((int) l6) - 58664, 83372L);
    Words.put64(b, ((int) l6) - 58672, 0L);
    Words.put64(b, ((int) l6) - 58680, 83372L);
    Words.put64(b, ((int) l6) - 58656, 0L);
    Words.put64(b, ((int) l6) - 58648, 0L);
    Words.put64(b, ((int) l6) - 58624, 83372L);
    Words.put64(b, ((int) l6) - 58632, 0L);
    Words.put64(b, ((int) l6) - 58640, 83372L);
    Words.put64(b, ((int) l6) - 58608, 0L);
    Words.put64(b, ((int) l6) - 58616, 0L);
    Words.put64(b, ((int) l6) - 58600, 83372L);
    Words.put64(b, ((int) l6) - 58592, 0L);
    Words.put64(b, ((int) l6) - 58584, 83372L);
    Words.put64(b, ((int) l6) - 58568, 0L);
    Words.put64(b, ((int) l6) - 58576, 0L);
    Words.put64(b, ((int) l6) - 58544, 83372L);
    Words.put64(b, ((int) l6) - 58552, 0L);
    Words.put64(b, ((int) l6) - 58560, 83372L);
    Words.put64(b, ((int) l6) - 58528, 0L);
    Words.put64(b, ((int) l6) - 58536, 0L);
    Words.put64(b, ((int) l6) - 58504, 83372L);
    Words.put64(b, ((int) l6) - 58512, 0L);
    Words.put64(b, ((int) l6) - 58520, 83372L);
    Words.put64(b, ((int) l6) - 58488, 0L);
    Words.put64(b, ((int) l6) - 58496, 0L);
    Words.put64(b, ((int) l6) - 58472, 0L);
    Words.put64(b, ((int) l6) - 58480, 83372L);
    l11 = l3;
    l13 = l4;
    L57: while (true) {
     l5 = l11;
     l9 = l13;
     L58: {
      L59: {
       L60: while (true) {
        l7 = l5;
        if ((l19 = ((l12 = l9) == 0L) ? 1 : 0) != 0) { break L59; }
        l8 = 1L;
        l15 = l18 = (l17 = (int) b[((int) l7) - 58912]) & 255;
        L61: {
         if (l17 > -1) { break L61; }
         l14 = (b[((int) l7) - 58911] & 0xff) & 63;
         L62: {
          if (l17 + Integer.MIN_VALUE > 2147483615) { break L62; }
          l15 = ((l18 << 6) & 1984) | l14;
          l8 = 2L;
          break L61;
         }
         l15 = (b[((int) l7) - 58910] & 0xff) & 63;
         L63: {
          if (l17 + Integer.MIN_VALUE > 2147483631) { break L63; }
          l15 = ((l14 << 6) | ((l18 << 12) & 61440)) | l15;
          l8 = 3L;
          break L61;
         }
         l15 = ((l15 << 6) | ((l14 << 12) | ((l18 << 18) & 1835008))) | ((b[((int) l7) - 58909] & 0xff) & 63);
         l8 = 4L;
        }
        l5 = -44L;
        L64: {
         L65: while (true) {
          if ((l16 = (Words.get32(b, ((int) (l5 + 87508L)) - 58912) == l15) ? 1 : 0) != 0) { break L64; }
          l14 = (l5 != 0L) ? 1 : 0;
          l5 = l5 + 4L;
          if (l14 != 0) { continue L65; }
          break L65;
         }
        }
        l9 = l12 - l8;
        l5 = l7 + l8;
        if (l16 != 0) { continue L60; }
        break L60;
       }
       l5 = 1L;
       L66: {
        if (l17 > -1) { break L66; }
        l14 = (b[((int) l7) - 58911] & 0xff) & 63;
        L67: {
         if (l17 + Integer.MIN_VALUE > 2147483615) { break L67; }
         l18 = ((l18 << 6) & 1984) | l14;
         l5 = 2L;
         break L66;
        }
        l15 = (b[((int) l7) - 58910] & 0xff) & 63;
        L68: {
         if (l17 + Integer.MIN_VALUE > 2147483631) { break L68; }
         l18 = ((l14 << 6) | ((l18 << 12) & 61440)) | l15;
         l5 = 3L;
         break L66;
        }
        l18 = ((l15 << 6) | ((l14 << 12) | ((l18 << 18) & 1835008))) | ((b[((int) l7) - 58909] & 0xff) & 63);
        l5 = 4L;
       }
       l14 = 1;
       L69: {
        L70: {
         L71: {
          if (l18 > 28856) { break L71; }
          L72: {
           switch (l18 + -32) {
           case 0: case 13: break L69;
           case 1: case 2: case 3: case 4: case 5: case 6: case 7: case 8: case 9: case 10: case 11: case 12: break L70;
           default: break L72;
           }
          }
          if (l18 != 26464) { break L70; }
          break L69;
         }
         if (l18 == 28857) { break L69; }
         if (l18 == 40670) { break L69; }
        }
        l14 = 0;
       }
       if (l12 == l5) { break L59; }
       if (l14 == 0) { break L59; }
       l15 = (l14 = (int) b[((int) (l5 = l7 + l5)) - 58912]) & 255;
       L73: {
        if (l14 > -1) { break L73; }
        l16 = (b[((int) l5) - 58911] & 0xff) & 63;
        L74: {
         if (l14 + Integer.MIN_VALUE > 2147483615) { break L74; }
         l15 = ((l15 << 6) & 1984) | l16;
         break L73;
        }
        l17 = (b[((int) l5) - 58910] & 0xff) & 63;
        L75: {
         if (l14 + Integer.MIN_VALUE > 2147483631) { break L75; }
         l15 = ((l16 << 6) | ((l15 << 12) & 61440)) | l17;
         break L73;
        }
        l15 = ((l17 << 6) | ((l16 << 12) | ((l15 << 18) & 1835008))) | ((b[((int) l5) - 58909] & 0xff) & 63);
       }
       l5 = -44L;
       L76: {
        L77: while (true) {
         if ((l16 = (Words.get32(b, ((int) (l5 + 87508L)) - 58912) == l15) ? 1 : 0) != 0) { break L76; }
         l14 = (l5 != 0L) ? 1 : 0;
         l5 = l5 + 4L;
         if (l14 != 0) { continue L77; }
         break L77;
        }
       }
       l14 = 1;
       if (l16 != 0) { break L58; }
      }
      l18 = 0;
      l14 = 0;
     }
     Words.put64(b, ((int) (l5 = (l6 + 88L) + (l10 * 40L))) - 58904, l13 - l12);
     Words.put64(b, ((int) l5) - 58912, l11);
     Words.put64(b, ((int) (l5 + 32L)) - 58912, l12);
     Words.put64(b, ((int) (l5 + 24L)) - 58912, l7);
     Words.put32(b, ((int) (l5 + 20L)) - 58912, l18);
     Words.put32(b, ((int) (l5 + 16L)) - 58912, l14);
     l10 = l10 + 1L;
     L78: {
      L79: {
       if (l14 != 0) { break L79; }
       l5 = l10;
       break L78;
      }
      L80: {
       L81: {
        if (l19 == 0) { break L81; }
        l13 = 0L;
        l11 = l7;
        break L80;
       }
       L82: {
        L83: {
         if ((l14 = (int) b[((int) l7) - 58912]) <= -1) { break L83; }
         l5 = 1L;
         break L82;
        }
        L84: {
         if (l14 + Integer.MIN_VALUE >= 2147483616) { break L84; }
         l5 = 2L;
         break L82;
        }
        l5 = (l14 + Integer.MIN_VALUE < 2147483632) ? 3L : 4L;
       }
       l13 = l12 - l5;
       l11 = l7 + l5;
      }
      l5 = 9L;
      if (l10 != 9L) { continue L57; }
     }
     break L57;
    }
    f207(m, l6 + 56L, l1, l2, 1, l6 + 88L, l5, Words.get64(b, ((int) ((l7 = (l6 + 88L) + (l5 * 40L)) + -16L)) - 58912), Words.get64(b, ((int) (l7 + -8L)) - 58912));
    l5 = l3;
    l12 = l4;
    L85: {
     if ((b[((int) l6) - 58856] & 0xff) != 1) { break L85; }
     Words.put64(b, ((int) l6) - 58888, Words.get64(b, ((int) l6) - 58832));
     Words.put64(b, ((int) l6) - 58896, Words.get64(b, ((int) l6) - 58840));
     Words.put64(b, ((int) l6) - 58904, Words.get64(b, ((int) l6) - 58848));
     l7 = 1L;
     break L3;
    }
    L86: {
     L87: while (true) {
      l7 = l5;
      if ((l9 = l12) == 0L) { break L86; }
      l15 = (l14 = (int) b[((int) l7) - 58912]) & 255;
      l8 = 1L;
      L88: {
       if (l14 > -1) { break L88; }
       l16 = (b[((int) l7) - 58911] & 0xff) & 63;
       L89: {
        if (l14 + Integer.MIN_VALUE > 2147483615) { break L89; }
        l15 = ((l15 << 6) & 1984) | l16;
        l8 = 2L;
        break L88;
       }
       l17 = (b[((int) l7) - 58910] & 0xff) & 63;
       L90: {
        if (l14 + Integer.MIN_VALUE > 2147483631) { break L90; }
        l15 = ((l16 << 6) | ((l15 << 12) & 61440)) | l17;
        l8 = 3L;
        break L88;
       }
       l15 = ((l17 << 6) | ((l16 << 12) | ((l15 << 18) & 1835008))) | ((b[((int) l7) - 58909] & 0xff) & 63);
       l8 = 4L;
      }
      l5 = -44L;
      L91: {
       L92: while (true) {
        if ((l16 = (Words.get32(b, ((int) (l5 + 87508L)) - 58912) == l15) ? 1 : 0) != 0) { break L91; }
        l14 = (l5 != 0L) ? 1 : 0;
        l5 = l5 + 4L;
        if (l14 != 0) { continue L92; }
        break L92;
       }
      }
      l12 = l9 - l8;
      l5 = l7 + l8;
      if (l16 != 0) { continue L87; }
      break L87;
     }
    }
    Core7.f208(m, l6 + 448L, l1, l2, 1, l3, l4 - l9, l7, l9);
    Words.put64(b, ((int) l6) - 58904, Words.get64(b, ((int) l6) - 58456));
    Words.put64(b, ((int) l6) - 58896, Words.get64(b, ((int) l6) - 58448));
    Words.put64(b, ((int) l6) - 58888, Words.get64(b, ((int) l6) - 58440));
    l7 = b[((int) l6) - 58464] & 0xffL;
   }
   Words.put64(b, ((int) l0) - 58912, l7);
   Words.put64(b, ((int) (l0 + 8L)) - 58912, Words.get64(b, ((int) l6) - 58904));
   Words.put64(b, ((int) (l0 + 16L)) - 58912, Words.get64(b, ((int) l6) - 58896));
   Words.put64(b, ((int) (l0 + 24L)) - 58912, Words.get64(b, ((int) l6) - 58888));
   break L1;
  }
  throw State.trap();
 }
 m.g0 = l6 + 480L;
}

static int f203(State m, long l0, long l1) {
 final byte[] b = m.bytes;
 long l2 = 0;
 long l3 = 0;
 int l4 = 0;
 int l5 = 0;
 int l6 = 0;
 int l7 = 0;
 L1: {
  if (m.g0 < 16L) { break L1; }
  L2: {
   L3: {
    if (l1 == 0L) { break L3; }
    L4: {
     if ((l4 = (int) b[((int) ((l2 = l0 + l1) + -1L)) - 58912]) >= 0) { break L4; }
     l3 = -2L;
     L5: {
      if ((b[((int) (l2 + -2L)) - 58912] & 0xff) + Integer.MIN_VALUE > -2147483457) { break L5; }
      l3 = ((b[((int) (l2 + -3L)) - 58912] & 0xff) + Integer.MIN_VALUE > -2147483457) ? -3L : -4L;
     }
     l4 = (l5 = (int) b[((int) (l1 = (l0 + l3) + l1)) - 58912]) & 255;
     if (l5 > -1) { break L4; }
     l6 = (b[((int) l1) - 58911] & 0xff) & 63;
     L6: {
      if (l5 + Integer.MIN_VALUE > 2147483615) { break L6; }
      l4 = ((l4 << 6) & 1984) | l6;
      break L4;
     }
     l7 = (b[((int) l1) - 58910] & 0xff) & 63;
     L7: {
      if (l5 + Integer.MIN_VALUE > 2147483631) { break L7; }
      l4 = ((l6 << 6) | ((l4 << 12) & 61440)) | l7;
      break L4;
     }
     l4 = ((l7 << 6) | ((l6 << 12) | ((l4 << 18) & 1835008))) | ((b[((int) l1) - 58909] & 0xff) & 63);
    }
    l5 = 1;
    L8: {
     if (l4 > 8363) { break L8; }
     if (l4 == 36) { break L2; }
     if (l4 != 163) { break L3; }
     break L2;
    }
    if (l4 == 8364) { break L2; }
    if (l4 == 65284) { break L2; }
   }
   l5 = 0;
  }
  final int t9 = l5;
  return t9;
 }
 throw State.trap();
}

static void f204(State m, long l0, long l1, long l2, long l3, long l4) {
 final byte[] b = m.bytes;
 long l5 = 0;
 long l6 = 0;
 int l7 = 0;
 int l8 = 0;
 int l9 = 0;
 int l10 = 0;
 int l11 = 0;
 L1: {
  L2: {
   if (m.g0 < 16L) { break L2; }
   L3: {
    L4: while (true) {
     l5 = l4;
     if ((l4 = l2) == 0L) { break L3; }
     L5: {
      if ((l7 = (int) b[((int) (l1 + (l2 = l4 + -1L))) - 58912]) >= 0) { break L5; }
      l2 = -2L;
      L6: {
       if ((b[((int) ((l6 = l1 + l4) + -2L)) - 58912] & 0xff) + Integer.MIN_VALUE > -2147483457) { break L6; }
       l2 = ((b[((int) (l6 + -3L)) - 58912] & 0xff) + Integer.MIN_VALUE > -2147483457) ? -3L : -4L;
      }
      l7 = (l8 = (int) b[((int) (l4 = l1 + (l2 = l2 + l4))) - 58912]) & 255;
      if (l8 > -1) { break L5; }
      l9 = (b[((int) l4) - 58911] & 0xff) & 63;
      L7: {
       if (l8 + Integer.MIN_VALUE > 2147483615) { break L7; }
       l7 = ((l7 << 6) & 1984) | l9;
       break L5;
      }
      l10 = (b[((int) l4) - 58910] & 0xff) & 63;
      L8: {
       if (l8 + Integer.MIN_VALUE > 2147483631) { break L8; }
       l7 = ((l9 << 6) | ((l7 << 12) & 61440)) | l10;
       break L5;
      }
      l7 = ((l10 << 6) | ((l9 << 12) | ((l7 << 18) & 1835008))) | ((b[((int) l4) - 58909] & 0xff) & 63);
     }
     if (l5 == 0L) { break L1; }
     L9: {
      if ((l8 = (int) b[((int) (l3 + (l4 = l5 + -1L))) - 58912]) >= 0) { break L9; }
      l4 = -2L;
      L10: {
       if ((b[((int) ((l6 = l3 + l5) + -2L)) - 58912] & 0xff) + Integer.MIN_VALUE > -2147483457) { break L10; }
       l4 = ((b[((int) (l6 + -3L)) - 58912] & 0xff) + Integer.MIN_VALUE > -2147483457) ? -3L : -4L;
      }
      l8 = (l9 = (int) b[((int) (l5 = l3 + (l4 = l4 + l5))) - 58912]) & 255;
      if (l9 > -1) { break L9; }
      l10 = (b[((int) l5) - 58911] & 0xff) & 63;
      L11: {
       if (l9 + Integer.MIN_VALUE > 2147483615) { break L11; }
       l8 = ((l8 << 6) & 1984) | l10;
       break L9;
      }
      l11 = (b[((int) l5) - 58910] & 0xff) & 63;
      L12: {
       if (l9 + Integer.MIN_VALUE > 2147483631) { break L12; }
       l8 = ((l10 << 6) | ((l8 << 12) & 61440)) | l11;
       break L9;
      }
      l8 = ((l11 << 6) | ((l10 << 12) | ((l8 << 18) & 1835008))) | ((b[((int) l5) - 58909] & 0xff) & 63);
     }
     if (l7 == l8) { continue L4; }
     break L4;
    }
    Words.put64(b, ((int) l0) - 58896, 0L);
    Words.put64(b, ((int) l0) - 58904, 0L);
    Words.put64(b, ((int) l0) - 58912, 0L);
    return;
   }
   Words.put64(b, ((int) l0) - 58912, 1L);
   Words.put64(b, ((int) (l0 + 16L)) - 58912, l5);
   Words.put64(b, ((int) (l0 + 8L)) - 58912, l3);
   return;
  }
  throw State.trap();
 }
 Words.put64(b, ((int) l0) - 58896, 0L);
 Words.put64(b, ((int) l0) - 58904, 0L);
 Words.put64(b, ((int) l0) - 58912, 0L);
}

static void f205(State m, long l0, int l1, int l2, long l3, long l4) {
 final byte[] b = m.bytes;
 long l5 = 0;
 long l6 = 0;
 long l7 = 0;
 long l8 = 0;
 int l9 = 0;
 int l10 = 0;
 int l11 = 0;
 int l12 = 0;
 int l13 = 0;
 int l14 = 0;
 int l15 = 0;
 m.g0 = l5 = m.g0 - 32L;
 L1: {
  L2: {
   L3: {
    L4: {
     L5: {
      L6: {
       L7: {
        L8: {
         L9: {
          L10: {
           L11: {
            if ((l6 = l5) < 16L) { break L11; }
            L12: {
             if (l4 == 0L) { break L12; }
             l10 = (l9 = (int) b[((int) l3) - 58912]) & 255;
             l7 = 1L;
             L13: {
              if (l9 > -1) { break L13; }
              l11 = (b[((int) l3) - 58911] & 0xff) & 63;
              L14: {
               if (l9 + Integer.MIN_VALUE > 2147483615) { break L14; }
               l10 = ((l10 << 6) & 1984) | l11;
               l7 = 2L;
               break L13;
              }
              l12 = (b[((int) l3) - 58910] & 0xff) & 63;
              L15: {
               if (l9 + Integer.MIN_VALUE > 2147483631) { break L15; }
               l10 = ((l11 << 6) | ((l10 << 12) & 61440)) | l12;
               l7 = 3L;
               break L13;
              }
              l10 = ((l12 << 6) | ((l11 << 12) | ((l10 << 18) & 1835008))) | ((b[((int) l3) - 58909] & 0xff) & 63);
              l7 = 4L;
             }
             l5 = -32L;
             L16: {
              L17: while (true) {
               if ((l11 = Words.get32(b, ((int) (l5 + 83884L)) - 58912)) == l10) { break L16; }
               l9 = (l5 != 0L) ? 1 : 0;
               l5 = l5 + 4L;
               if (l9 != 0) { continue L17; }
               break L17;
              }
             }
             l4 = l4 - l7;
             l5 = l3 + l7;
             if (l11 != l10) { break L5; }
             if ((((l10 != 21040) & (l10 != 33267)) ? 1 : 0) != 1) { break L5; }
             if ((l12 = (l4 == 0L) ? 1 : 0) != 0) { break L8; }
             l11 = (l9 = (int) b[((int) l5) - 58912]) & 255;
             L18: {
              if (l9 > -1) { break L18; }
              l13 = (b[((int) l5) - 58911] & 0xff) & 63;
              L19: {
               if (l9 + Integer.MIN_VALUE < 2147483616) { break L19; }
               l14 = (b[((int) l5) - 58910] & 0xff) & 63;
               L20: {
                if (l9 + Integer.MIN_VALUE > 2147483631) { break L20; }
                l15 = 1;
                if (((l11 = ((l13 << 6) | ((l11 << 12) & 61440)) | l14) + -48) + Integer.MIN_VALUE < -2147483638) { break L9; }
                if ((l11 + -65296) + Integer.MIN_VALUE >= -2147483638) { break L10; }
                break L9;
               }
               l15 = 1;
               if (((l11 = ((l14 << 6) | ((l13 << 12) | ((l11 << 18) & 1835008))) | ((b[((int) l5) - 58909] & 0xff) & 63)) + -48) + Integer.MIN_VALUE < -2147483638) { break L9; }
               if ((l11 + -65296) + Integer.MIN_VALUE < -2147483638) { break L9; }
               break L10;
              }
              if (((l11 = ((l11 << 6) & 1984) | l13) + -48) + Integer.MIN_VALUE >= -2147483638) { break L10; }
              l15 = 1;
              break L9;
             }
             if (((l9 + -48) & 255) + Integer.MIN_VALUE >= -2147483638) { break L10; }
             l15 = 1;
             break L9;
            }
            Words.put64(b, ((int) l0) - 58880, 0L);
            Words.put64(b, ((int) l0) - 58888, 0L);
            Words.put64(b, ((int) l0) - 58896, 0L);
            Words.put64(b, ((int) l0) - 58904, 0L);
            Words.put64(b, ((int) l0) - 58912, 0L);
            break L1;
           }
           throw State.trap();
          }
          L21: {
           if (l11 == 8722) { break L21; }
           if (l11 != 45) { break L8; }
          }
          L22: {
           L23: {
            if (l9 <= -1) { break L23; }
            l3 = 1L;
            break L22;
           }
           L24: {
            if (l9 + Integer.MIN_VALUE >= 2147483616) { break L24; }
            l3 = 2L;
            break L22;
           }
           l3 = (l9 + Integer.MIN_VALUE < 2147483632) ? 3L : 4L;
          }
          if (l4 == l3) { break L8; }
          l9 = (l11 = (int) b[((int) (l3 = l5 + l3)) - 58912]) & 255;
          L25: {
           if (l11 > -1) { break L25; }
           l15 = (b[((int) l3) - 58911] & 0xff) & 63;
           L26: {
            if (l11 + Integer.MIN_VALUE > 2147483615) { break L26; }
            l9 = ((l9 << 6) & 1984) | l15;
            break L25;
           }
           l13 = (b[((int) l3) - 58910] & 0xff) & 63;
           L27: {
            if (l11 + Integer.MIN_VALUE > 2147483631) { break L27; }
            l9 = ((l15 << 6) | ((l9 << 12) & 61440)) | l13;
            break L25;
           }
           l9 = ((l13 << 6) | ((l15 << 12) | ((l9 << 18) & 1835008))) | ((b[((int) l3) - 58909] & 0xff) & 63);
          }
          l15 = (((l9 + -48) + Integer.MIN_VALUE < -2147483638) | ((l9 + -65296) + Integer.MIN_VALUE < -2147483638)) ? 1 : 0;
         }
         L28: {
          if (l1 != 0) { break L28; }
          if ((l15 & 1) == 0) { break L28; }
          if (l10 == 45) { break L5; }
          if (l10 == 65293) { break L5; }
          break L4;
         }
         if (((l15 | (l1 ^ -1)) & 1) != 0) { break L6; }
         break L7;
        }
        if (l1 == 0) { break L5; }
       }
       Words.put64(b, ((int) l6) - 58896, 0L);
       Words.put64(b, ((int) l6) - 58904, 0L);
       Words.put64(b, ((int) l6) - 58912, 0L);
       f197(m, l6, 89120L, 6L, l5, l4);
       l3 = 3L;
       l7 = 88992L;
       l8 = 1L;
       if ((b[((int) l6) - 58912] & 0xff) == 1) { break L2; }
       Words.put64(b, ((int) l6) - 58896, 0L);
       Words.put64(b, ((int) l6) - 58904, 0L);
       Words.put64(b, ((int) l6) - 58912, 0L);
       f197(m, l6, 89126L, 6L, l5, l4);
       if ((b[((int) l6) - 58912] & 0xff) == 1) { break L2; }
       Words.put64(b, ((int) l6) - 58896, 0L);
       Words.put64(b, ((int) l6) - 58904, 0L);
       Words.put64(b, ((int) l6) - 58912, 0L);
       f197(m, l6, 89132L, 6L, l5, l4);
       if ((b[((int) l6) - 58912] & 0xff) == 1) { break L2; }
       Words.put64(b, ((int) l6) - 58896, 0L);
       Words.put64(b, ((int) l6) - 58904, 0L);
       Words.put64(b, ((int) l6) - 58912, 0L);
       f197(m, l6, 89138L, 6L, l5, l4);
       if ((b[((int) l6) - 58912] & 0xff) == 1) { break L2; }
       Words.put64(b, ((int) l6) - 58896, 0L);
       Words.put64(b, ((int) l6) - 58904, 0L);
       Words.put64(b, ((int) l6) - 58912, 0L);
       f197(m, l6, 89144L, 6L, l5, l4);
       if ((b[((int) l6) - 58912] & 0xff) == 1) { break L2; }
       Words.put64(b, ((int) l6) - 58896, 0L);
       Words.put64(b, ((int) l6) - 58904, 0L);
       Words.put64(b, ((int) l6) - 58912, 0L);
       f197(m, l6, 89150L, 6L, l5, l4);
       if ((b[((int) l6) - 58912] & 0xff) == 1) { break L2; }
       Words.put64(b, ((int) l6) - 58896, 0L);
       Words.put64(b, ((int) l6) - 58904, 0L);
       Words.put64(b, ((int) l6) - 58912, 0L);
       f197(m, l6, 89156L, 9L, l5, l4);
       l1 = ((l9 = b[((int) l6) - 58912] & 0xff) == 1) ? 1 : 0;
       if (l12 != 0) { break L6; }
       if (l9 == 1) { break L6; }
       if ((l9 = (int) b[((int) l5) - 58912]) > -1) { break L5; }
       if (l9 + Integer.MIN_VALUE < 2147483616) { break L5; }
       l11 = l9 & 255;
       l1 = (b[((int) l5) - 58911] & 0xff) & 63;
       l12 = (b[((int) l5) - 58910] & 0xff) & 63;
       L29: {
        L30: {
         if (l9 + Integer.MIN_VALUE > 2147483631) { break L30; }
         l9 = ((l1 << 6) | ((l11 << 12) & 61440)) | l12;
         break L29;
        }
        l9 = ((l12 << 6) | ((l1 << 12) | ((l11 << 18) & 1835008))) | ((b[((int) l5) - 58909] & 0xff) & 63);
       }
       L31: {
        if (l9 > 20939) { break L31; }
        if ((l9 = l9 + -19978) + Integer.MIN_VALUE > -2147483613) { break L5; }
        if (((1L << (l9 & 0xffffffffL)) & 34359738371L) == 0L) { break L5; }
        break L2;
       }
       L32: {
        if (l9 > 26201) { break L32; }
        if (l9 == 20940) { break L2; }
        if (l9 != 26089) { break L5; }
        break L2;
       }
       if (l9 == 26202) { break L2; }
       if (l9 != 28145) { break L5; }
       break L2;
      }
      if (l1 != 0) { break L4; }
     }
     Words.put64(b, ((int) l6) - 58888, 0L);
     Words.put64(b, ((int) l6) - 58896, 0L);
     Words.put64(b, ((int) l6) - 58904, 0L);
     Words.put64(b, ((int) l6) - 58912, 0L);
     f206(m, l6, l5, l4);
     L33: {
      L34: {
       L35: {
        if (l10 != 215) { break L35; }
        if (l4 == 0L) { break L35; }
        l9 = (l10 = (int) b[((int) l5) - 58912]) & 255;
        L36: {
         if (l10 > -1) { break L36; }
         l11 = (b[((int) l5) - 58911] & 0xff) & 63;
         L37: {
          if (l10 + Integer.MIN_VALUE > 2147483615) { break L37; }
          l9 = ((l9 << 6) & 1984) | l11;
          break L36;
         }
         l1 = (b[((int) l5) - 58910] & 0xff) & 63;
         L38: {
          if (l10 + Integer.MIN_VALUE > 2147483631) { break L38; }
          l9 = ((l11 << 6) | ((l9 << 12) & 61440)) | l1;
          break L36;
         }
         l9 = ((l1 << 6) | ((l11 << 12) | ((l9 << 18) & 1835008))) | ((b[((int) l5) - 58909] & 0xff) & 63);
        }
        l7 = Words.get64(b, ((int) l6) - 58888);
        l3 = Words.get64(b, ((int) l6) - 58896);
        L39: {
         if ((l9 + -48) + Integer.MIN_VALUE < -2147483638) { break L39; }
         if ((l9 + -65296) + Integer.MIN_VALUE >= -2147483638) { break L34; }
        }
        if (l7 == 0L) { break L33; }
        l9 = (l10 = (int) b[((int) l3) - 58912]) & 255;
        L40: {
         if (l10 > -1) { break L40; }
         l11 = (b[((int) l3) - 58911] & 0xff) & 63;
         L41: {
          if (l10 + Integer.MIN_VALUE > 2147483615) { break L41; }
          l9 = ((l9 << 6) & 1984) | l11;
          break L40;
         }
         l1 = (b[((int) l3) - 58910] & 0xff) & 63;
         L42: {
          if (l10 + Integer.MIN_VALUE > 2147483631) { break L42; }
          l9 = ((l11 << 6) | ((l9 << 12) & 61440)) | l1;
          break L40;
         }
         l9 = ((l1 << 6) | ((l11 << 12) | ((l9 << 18) & 1835008))) | ((b[((int) l3) - 58909] & 0xff) & 63);
        }
        if (l9 != 61) { break L33; }
        break L34;
       }
       if (l10 != 47) { break L34; }
       if (l2 == 0) { break L34; }
       if (l4 == 0L) { break L34; }
       l9 = (l10 = (int) b[((int) l5) - 58912]) & 255;
       L43: {
        if (l10 > -1) { break L43; }
        l11 = (b[((int) l5) - 58911] & 0xff) & 63;
        L44: {
         if (l10 + Integer.MIN_VALUE > 2147483615) { break L44; }
         l9 = ((l9 << 6) & 1984) | l11;
         break L43;
        }
        l1 = (b[((int) l5) - 58910] & 0xff) & 63;
        L45: {
         if (l10 + Integer.MIN_VALUE > 2147483631) { break L45; }
         l9 = ((l11 << 6) | ((l9 << 12) & 61440)) | l1;
         break L43;
        }
        l9 = ((l1 << 6) | ((l11 << 12) | ((l9 << 18) & 1835008))) | ((b[((int) l5) - 58909] & 0xff) & 63);
       }
       if (f189(m, l9) == 0) { break L34; }
       l3 = 3L;
       l7 = 88998L;
       break L3;
      }
      l5 = 0L;
      l4 = 0L;
      l8 = 0L;
      l7 = 0L;
      l3 = 0L;
      break L2;
     }
     l3 = 3L;
     l7 = 88995L;
     break L3;
    }
    l3 = 3L;
    l7 = 88992L;
   }
   l8 = 1L;
  }
  Words.put64(b, ((int) l0) - 58912, l8);
  Words.put64(b, ((int) (l0 + 32L)) - 58912, l4);
  Words.put64(b, ((int) (l0 + 24L)) - 58912, l5);
  Words.put64(b, ((int) (l0 + 16L)) - 58912, l3);
  Words.put64(b, ((int) (l0 + 8L)) - 58912, l7);
 }
 m.g0 = l6 + 32L;
}

static void f206(State m, long l0, long l1, long l2) {
 final byte[] b = m.bytes;
 long l3 = 0;
 long l4 = 0;
 long l5 = 0;
 long l6 = 0;
 int l7 = 0;
 int l8 = 0;
 int l9 = 0;
 int l10 = 0;
 L1: {
  if (m.g0 < 16L) { break L1; }
  L2: {
   L3: {
    if (!(l2 == 0L)) { break L3; }
    l3 = 0L;
    l4 = l1;
    break L2;
   }
   l5 = l2;
   l4 = l1;
   L4: while (true) {
    l8 = (l7 = (int) b[((int) l4) - 58912]) & 255;
    l6 = 1L;
    L5: {
     if (l7 > -1) { break L5; }
     l9 = (b[((int) l4) - 58911] & 0xff) & 63;
     L6: {
      if (l7 + Integer.MIN_VALUE > 2147483615) { break L6; }
      l8 = ((l8 << 6) & 1984) | l9;
      l6 = 2L;
      break L5;
     }
     l10 = (b[((int) l4) - 58910] & 0xff) & 63;
     L7: {
      if (l7 + Integer.MIN_VALUE > 2147483631) { break L7; }
      l8 = ((l9 << 6) | ((l8 << 12) & 61440)) | l10;
      l6 = 3L;
      break L5;
     }
     l8 = ((l10 << 6) | ((l9 << 12) | ((l8 << 18) & 1835008))) | ((b[((int) l4) - 58909] & 0xff) & 63);
     l6 = 4L;
    }
    L8: {
     if ((l8 + -48) + Integer.MIN_VALUE < -2147483638) { break L8; }
     if ((l8 + -65296) + Integer.MIN_VALUE < -2147483638) { break L8; }
     l3 = l5;
     L9: {
      switch (l8 + -44) {
      case 0: case 2: break L8;
      case 1: break L2;
      default: break L9;
      }
     }
     l3 = l5;
     switch (l8 + -65292) {
     case 0: case 2: break L8;
     default: break L2;
     }
    }
    l4 = l4 + l6;
    l3 = 0L;
    if ((l5 = l5 - l6) != 0L) { continue L4; }
    break L4;
   }
  }
  Words.put64(b, ((int) l0) - 58888, l3);
  Words.put64(b, ((int) l0) - 58896, l4);
  Words.put64(b, ((int) l0) - 58912, l1);
  Words.put64(b, ((int) l0) - 58904, l2 - l3);
  return;
 }
 throw State.trap();
}

static int f207_1(State m, long l1, long l2, int l3, long l4, long l5, long l6, long l7, long l8, long l9, long l10, long l11, long l12, long l13, long l14, int l18, int l19, int l20, int l21) {
 final byte[] b = m.bytes;
 int exit = 0;
 PART: {
  L4: {
   L5: {
    if ((l8 = m.g0) < 16L) { break L5; }
    if (l5 == 0L) { exit = 1; break PART; }
    l9 = l4 + 20L;
    l10 = l5;
    L6: {
     L7: {
      L8: while (true) {
       L9: {
        if ((b[((int) (l9 + -4L)) - 58912] & 0xff) != 1) { break L9; }
        if ((l18 = Words.get32(b, ((int) l9) - 58912)) == 46) { break L9; }
        if (l18 == 40670) { break L9; }
        if (l18 != 28857) { break L7; }
       }
       l9 = l9 + 40L;
       if ((l10 = l10 + -1L) != 0L) { continue L8; }
       break L8;
      }
      l9 = l4;
      l11 = l5;
      L10: while (true) {
       L11: {
        if ((l10 = Words.get64(b, ((int) (l9 + 8L)) - 58912)) == 0L) { break L11; }
        L12: {
         L13: {
          if ((l18 = (int) b[((int) (l12 = Words.get64(b, ((int) l9) - 58912))) - 58912]) <= -1) { break L13; }
          l13 = 1L;
          break L12;
         }
         L14: {
          if (l18 + Integer.MIN_VALUE >= 2147483616) { break L14; }
          l13 = 2L;
          break L12;
         }
         l13 = (l18 + Integer.MIN_VALUE < 2147483632) ? 3L : 4L;
        }
        if (l10 == l13) { break L11; }
        L15: {
         L16: {
          if ((l18 = (int) b[((int) (l14 = l12 + l13)) - 58912]) <= -1) { break L16; }
          l12 = 1L;
          break L15;
         }
         L17: {
          if (l18 + Integer.MIN_VALUE >= 2147483616) { break L17; }
          l12 = 2L;
          break L15;
         }
         l12 = (l18 + Integer.MIN_VALUE < 2147483632) ? 3L : 4L;
        }
        if (l10 == (l13 = l12 + l13)) { break L11; }
        L18: {
         L19: {
          if ((l18 = (int) b[((int) (l14 = l14 + l12)) - 58912]) <= -1) { break L19; }
          l12 = 1L;
          break L18;
         }
         L20: {
          if (l18 + Integer.MIN_VALUE >= 2147483616) { break L20; }
          l12 = 2L;
          break L18;
         }
         l12 = (l18 + Integer.MIN_VALUE < 2147483632) ? 3L : 4L;
        }
        if (l10 == (l13 = l12 + l13)) { break L11; }
        L21: {
         L22: {
          if ((l18 = (int) b[((int) (l14 + l12)) - 58912]) <= -1) { break L22; }
          l12 = 1L;
          break L21;
         }
         L23: {
          if (l18 + Integer.MIN_VALUE >= 2147483616) { break L23; }
          l12 = 2L;
          break L21;
         }
         l12 = (l18 + Integer.MIN_VALUE < 2147483632) ? 3L : 4L;
        }
        if (l10 != (l12 + l13)) { break L7; }
       }
       l9 = l9 + 40L;
       if ((l11 = l11 + -1L) != 0L) { continue L10; }
       break L10;
      }
      if ((l9 = l5 + -3L) + Long.MIN_VALUE > -9223372036854775807L) { break L7; }
      L24: {
       L25: {
        switch ((int) l9) {
        case 1: break L25;
        default: break L24;
        }
       }
       if (f199(m, 255, Words.get64(b, ((int) l4) - 58912), Words.get64(b, ((int) l4) - 58904)) == 0) { break L6; }
       if (f199(m, 255, Words.get64(b, ((int) (l4 + 40L)) - 58912), Words.get64(b, ((int) (l4 + 48L)) - 58912)) == 0) { break L6; }
       if (f199(m, 255, Words.get64(b, ((int) (l4 + 80L)) - 58912), Words.get64(b, ((int) (l4 + 88L)) - 58912)) == 0) { break L6; }
       if (f199(m, 255, Words.get64(b, ((int) (l4 + 120L)) - 58912), Words.get64(b, ((int) (l4 + 128L)) - 58912)) == 0) { break L6; }
      }
      L26: {
       if (l3 != 0) { break L26; }
       L27: {
        if (f195(m, l1, l2) == 0) { break L27; }
        if (l2 == 0L) { break L6; }
        l3 = l18 = (int) b[((int) ((l9 = l1 + l2) + -1L)) - 58912];
        L28: {
         if (l18 >= 0) { break L28; }
         l10 = -2L;
         L29: {
          if ((b[((int) (l9 + -2L)) - 58912] & 0xff) + Integer.MIN_VALUE > -2147483457) { break L29; }
          l10 = ((b[((int) (l9 + -3L)) - 58912] & 0xff) + Integer.MIN_VALUE > -2147483457) ? -3L : -4L;
         }
         l3 = (l19 = (int) b[((int) (l10 = (l1 + l10) + l2)) - 58912]) & 255;
         if (l19 > -1) { break L28; }
         l20 = (b[((int) l10) - 58911] & 0xff) & 63;
         L30: {
          if (l19 + Integer.MIN_VALUE > 2147483615) { break L30; }
          l3 = ((l3 << 6) & 1984) | l20;
          break L28;
         }
         l21 = (b[((int) l10) - 58910] & 0xff) & 63;
         L31: {
          if (l19 + Integer.MIN_VALUE > 2147483631) { break L31; }
          l3 = ((l20 << 6) | ((l3 << 12) & 61440)) | l21;
          break L28;
         }
         l3 = ((l21 << 6) | ((l20 << 12) | ((l3 << 18) & 1835008))) | ((b[((int) l10) - 58909] & 0xff) & 63);
        }
        if ((l3 | 32) != 118) { break L6; }
        L32: {
         L33: {
          if (l18 <= -1) { break L33; }
          l9 = l2 + -1L;
          break L32;
         }
         l10 = -2L;
         L34: {
          if ((b[((int) (l9 + -2L)) - 58912] & 0xff) + Integer.MIN_VALUE > -2147483457) { break L34; }
          l10 = ((b[((int) (l9 + -3L)) - 58912] & 0xff) + Integer.MIN_VALUE > -2147483457) ? -3L : -4L;
         }
         l9 = l10 + l2;
        }
        if (l9 == 0L) { break L27; }
        L35: {
         if ((l18 = (int) b[((int) ((l10 = l1 + l9) + -1L)) - 58912]) >= 0) { break L35; }
         l11 = -2L;
         L36: {
          if ((b[((int) (l10 + -2L)) - 58912] & 0xff) + Integer.MIN_VALUE > -2147483457) { break L36; }
          l11 = ((b[((int) (l10 + -3L)) - 58912] & 0xff) + Integer.MIN_VALUE > -2147483457) ? -3L : -4L;
         }
         l18 = (l3 = (int) b[((int) (l9 = (l1 + l11) + l9)) - 58912]) & 255;
         if (l3 > -1) { break L35; }
         l19 = (b[((int) l9) - 58911] & 0xff) & 63;
         L37: {
          if (l3 + Integer.MIN_VALUE > 2147483615) { break L37; }
          l18 = ((l18 << 6) & 1984) | l19;
          break L35;
         }
         l20 = (b[((int) l9) - 58910] & 0xff) & 63;
         L38: {
          if (l3 + Integer.MIN_VALUE > 2147483631) { break L38; }
          l18 = ((l19 << 6) | ((l18 << 12) & 61440)) | l20;
          break L35;
         }
         l18 = ((l20 << 6) | ((l19 << 12) | ((l18 << 18) & 1835008))) | ((b[((int) l9) - 58909] & 0xff) & 63);
        }
        if (((l18 & -33) + -91) + Integer.MIN_VALUE > 2147483621) { break L6; }
       }
       if (f196(m, l6, l7) != 0) { break L6; }
       l18 = 1;
       if (l5 != 3L) { exit = 2; break PART; }
       if ((l9 = Words.get64(b, ((int) l4) - 58904)) == 0L) { exit = 2; break PART; }
       L39: {
        L40: {
         if ((l3 = (int) b[((int) (l11 = Words.get64(b, ((int) l4) - 58912))) - 58912]) <= -1) { break L40; }
         l10 = 1L;
         break L39;
        }
        L41: {
         if (l3 + Integer.MIN_VALUE >= 2147483616) { break L41; }
         l10 = 2L;
         break L39;
        }
        l10 = (l3 + Integer.MIN_VALUE < 2147483632) ? 3L : 4L;
       }
       if (l9 == l10) { exit = 2; break PART; }
       L42: {
        L43: {
         if ((l3 = (int) b[((int) (l13 = l11 + l10)) - 58912]) <= -1) { break L43; }
         l11 = 1L;
         break L42;
        }
        L44: {
         if (l3 + Integer.MIN_VALUE >= 2147483616) { break L44; }
         l11 = 2L;
         break L42;
        }
        l11 = (l3 + Integer.MIN_VALUE < 2147483632) ? 3L : 4L;
       }
       if (l9 == (l10 = l11 + l10)) { exit = 2; break PART; }
       L45: {
        L46: {
         if ((l3 = (int) b[((int) (l13 = l13 + l11)) - 58912]) <= -1) { break L46; }
         l11 = 1L;
         break L45;
        }
        L47: {
         if (l3 + Integer.MIN_VALUE >= 2147483616) { break L47; }
         l11 = 2L;
         break L45;
        }
        l11 = (l3 + Integer.MIN_VALUE < 2147483632) ? 3L : 4L;
       }
       if (l9 == (l10 = l11 + l10)) { exit = 2; break PART; }
       L48: {
        L49: {
         if ((l3 = (int) b[((int) (l13 + l11)) - 58912]) <= -1) { break L49; }
         l11 = 1L;
         break L48;
        }
        L50: {
         if (l3 + Integer.MIN_VALUE >= 2147483616) { break L50; }
         l11 = 2L;
         break L48;
        }
        l11 = (l3 + Integer.MIN_VALUE < 2147483632) ? 3L : 4L;
       }
       if (l9 != (l11 + l10)) { exit = 2; break PART; }
       l9 = Words.get64(b, ((int) (l4 + 88L)) - 58912);
       l10 = Words.get64(b, ((int) (l4 + 80L)) - 58912);
       if (f199(m, 12, Words.get64(b, ((int) (l4 + 40L)) - 58912), Words.get64(b, ((int) (l4 + 48L)) - 58912)) == 0) { exit = 2; break PART; }
       if (f199(m, 31, l10, l9) != 0) { break L6; }
       exit = 2; break PART;
      }
      if (Core7.f210(m, l4, l5, l6, l7) == 0) { break L6; }
      l18 = 1;
      exit = 2; break PART;
     }
     if ((l5 + -2L) + Long.MIN_VALUE > -9223372036854775802L) { exit = 1; break PART; }
    }
    if (f195(m, l1, l2) != 0) { exit = 1; break PART; }
    if (f196(m, l6, l7) != 0) { exit = 1; break PART; }
    l9 = l4 + 20L;
    l10 = l5;
    L51: while (true) {
     L52: {
      if ((b[((int) (l9 + -4L)) - 58912] & 0xff) != 1) { break L52; }
      if (Words.get32(b, ((int) l9) - 58912) == 32) { break L52; }
      l9 = l4 + 20L;
      l10 = l5;
      L53: while (true) {
       L54: {
        if ((b[((int) (l9 + -4L)) - 58912] & 0xff) != 1) { break L54; }
        if (Words.get32(b, ((int) l9) - 58912) != 45) { exit = 3; break PART; }
       }
       l9 = l9 + 40L;
       if ((l10 = l10 + -1L) != 0L) { continue L53; }
       break L4;
      }
     }
     l9 = l9 + 40L;
     if (!((l10 = l10 + -1L) == 0L)) { continue L51; }
     break L4;
    }
   }
   throw State.trap();
  }
 }
 m.kept[0] = l3;
 m.kept[1] = l8;
 m.kept[2] = l9;
 m.kept[3] = l10;
 m.kept[4] = l11;
 m.kept[5] = l12;
 m.kept[6] = l13;
 m.kept[7] = l14;
 m.kept[8] = l18;
 m.kept[9] = l19;
 m.kept[10] = l20;
 m.kept[11] = l21;
 return exit;
}

static int f207_2(State m, int l3, long l4, long l5, long l9, long l10, long l11, long l12, long l13, long l14, long l15, long l16, int l18, int l19) {
 final byte[] b = m.bytes;
 int exit = 0;
 PART: {
  L56: {
   L57: {
    if ((l18 = ((l9 = Words.get64(b, ((int) l4) - 58904)) == 0L) ? 1 : 0) != 0) { break L57; }
    L58: {
     L59: {
      if ((l3 = (int) b[((int) l10) - 58912]) <= -1) { break L59; }
      l11 = 1L;
      break L58;
     }
     L60: {
      if (l3 + Integer.MIN_VALUE >= 2147483616) { break L60; }
      l11 = 2L;
      break L58;
     }
     l11 = (l3 + Integer.MIN_VALUE < 2147483632) ? 3L : 4L;
    }
    if (l9 == l11) { break L57; }
    L61: {
     L62: {
      if ((l3 = (int) b[((int) (l12 = l10 + l11)) - 58912]) <= -1) { break L62; }
      l13 = 1L;
      break L61;
     }
     L63: {
      if (l3 + Integer.MIN_VALUE >= 2147483616) { break L63; }
      l13 = 2L;
      break L61;
     }
     l13 = (l3 + Integer.MIN_VALUE < 2147483632) ? 3L : 4L;
    }
    if (l9 == (l11 = l13 + l11)) { break L57; }
    L64: {
     L65: {
      if ((l3 = (int) b[((int) (l12 + l13)) - 58912]) <= -1) { break L65; }
      l13 = 1L;
      break L64;
     }
     L66: {
      if (l3 + Integer.MIN_VALUE >= 2147483616) { break L66; }
      l13 = 2L;
      break L64;
     }
     l13 = (l3 + Integer.MIN_VALUE < 2147483632) ? 3L : 4L;
    }
    if (l9 != (l13 + l11)) { break L57; }
    if ((l12 = l5 + -1L) == 0L) { break L56; }
    if ((l11 = Words.get64(b, ((int) (l4 + 48L)) - 58912)) == 0L) { break L57; }
    L67: {
     L68: {
      if ((l3 = (int) b[((int) (l14 = Words.get64(b, ((int) (l4 + 40L)) - 58912))) - 58912]) <= -1) { break L68; }
      l13 = 1L;
      break L67;
     }
     L69: {
      if (l3 + Integer.MIN_VALUE >= 2147483616) { break L69; }
      l13 = 2L;
      break L67;
     }
     l13 = (l3 + Integer.MIN_VALUE < 2147483632) ? 3L : 4L;
    }
    if (l11 == l13) { break L57; }
    L70: {
     L71: {
      if ((l3 = (int) b[((int) (l15 = l14 + l13)) - 58912]) <= -1) { break L71; }
      l14 = 1L;
      break L70;
     }
     L72: {
      if (l3 + Integer.MIN_VALUE >= 2147483616) { break L72; }
      l14 = 2L;
      break L70;
     }
     l14 = (l3 + Integer.MIN_VALUE < 2147483632) ? 3L : 4L;
    }
    if (l11 == (l13 = l14 + l13)) { break L57; }
    L73: {
     L74: {
      if ((l3 = (int) b[((int) (l15 = l15 + l14)) - 58912]) <= -1) { break L74; }
      l14 = 1L;
      break L73;
     }
     L75: {
      if (l3 + Integer.MIN_VALUE >= 2147483616) { break L75; }
      l14 = 2L;
      break L73;
     }
     l14 = (l3 + Integer.MIN_VALUE < 2147483632) ? 3L : 4L;
    }
    if (l11 == (l13 = l14 + l13)) { break L57; }
    l16 = 1L;
    L76: {
     if ((l3 = (int) b[((int) (l15 + l14)) - 58912]) > -1) { break L76; }
     l16 = 2L;
     if (l3 + Integer.MIN_VALUE < 2147483616) { break L76; }
     l16 = (l3 + Integer.MIN_VALUE < 2147483632) ? 3L : 4L;
    }
    if (l12 == 1L) { break L57; }
    if (l11 != (l16 + l13)) { break L57; }
    if ((l11 = Words.get64(b, ((int) (l4 + 88L)) - 58912)) == 0L) { break L56; }
    L77: {
     L78: {
      if ((l3 = (int) b[((int) (l12 = Words.get64(b, ((int) (l4 + 80L)) - 58912))) - 58912]) <= -1) { break L78; }
      l13 = 1L;
      break L77;
     }
     L79: {
      if (l3 + Integer.MIN_VALUE >= 2147483616) { break L79; }
      l13 = 2L;
      break L77;
     }
     l13 = (l3 + Integer.MIN_VALUE < 2147483632) ? 3L : 4L;
    }
    if (l11 == l13) { break L56; }
    L80: {
     L81: {
      if ((l3 = (int) b[((int) (l14 = l12 + l13)) - 58912]) <= -1) { break L81; }
      l12 = 1L;
      break L80;
     }
     L82: {
      if (l3 + Integer.MIN_VALUE >= 2147483616) { break L82; }
      l12 = 2L;
      break L80;
     }
     l12 = (l3 + Integer.MIN_VALUE < 2147483632) ? 3L : 4L;
    }
    if (l11 == (l13 = l12 + l13)) { break L56; }
    L83: {
     L84: {
      if ((l3 = (int) b[((int) (l14 = l14 + l12)) - 58912]) <= -1) { break L84; }
      l12 = 1L;
      break L83;
     }
     L85: {
      if (l3 + Integer.MIN_VALUE >= 2147483616) { break L85; }
      l12 = 2L;
      break L83;
     }
     l12 = (l3 + Integer.MIN_VALUE < 2147483632) ? 3L : 4L;
    }
    if (l11 == (l13 = l12 + l13)) { break L56; }
    L86: {
     L87: {
      if ((l3 = (int) b[((int) (l14 + l12)) - 58912]) <= -1) { break L87; }
      l12 = 1L;
      break L86;
     }
     L88: {
      if (l3 + Integer.MIN_VALUE >= 2147483616) { break L88; }
      l12 = 2L;
      break L86;
     }
     l12 = (l3 + Integer.MIN_VALUE < 2147483632) ? 3L : 4L;
    }
    if (l5 + Long.MIN_VALUE > -9223372036854775805L) { break L56; }
    if (l11 != (l12 + l13)) { break L56; }
    if (Core7.f211(m, 89168L, 7L, l10, l9) == 0) { break L56; }
    l18 = 0;
    exit = 1; break PART;
   }
   if (l5 != 2L) { break L56; }
   l3 = Core7.f212(m, l10, l9);
   if (l18 != 0) { break L56; }
   if (l3 == 0) { break L56; }
   L89: {
    L90: {
     if ((l3 = (int) b[((int) l10) - 58912]) <= -1) { break L90; }
     l11 = 1L;
     break L89;
    }
    L91: {
     if (l3 + Integer.MIN_VALUE >= 2147483616) { break L91; }
     l11 = 2L;
     break L89;
    }
    l11 = (l3 + Integer.MIN_VALUE < 2147483632) ? 3L : 4L;
   }
   L92: {
    L93: {
     if (l9 == l11) { break L93; }
     L94: {
      L95: {
       if ((l19 = (int) b[((int) (l12 = l10 + l11)) - 58912]) <= -1) { break L95; }
       l13 = 1L;
       break L94;
      }
      L96: {
       if (l19 + Integer.MIN_VALUE >= 2147483616) { break L96; }
       l13 = 2L;
       break L94;
      }
      l13 = (l19 + Integer.MIN_VALUE < 2147483632) ? 3L : 4L;
     }
     if (l9 == (l11 = l13 + l11)) { break L93; }
     L97: {
      L98: {
       if ((l19 = (int) b[((int) (l12 + l13)) - 58912]) <= -1) { break L98; }
       l13 = 1L;
       break L97;
      }
      L99: {
       if (l19 + Integer.MIN_VALUE >= 2147483616) { break L99; }
       l13 = 2L;
       break L97;
      }
      l13 = (l19 + Integer.MIN_VALUE < 2147483632) ? 3L : 4L;
     }
     if (l9 == (l13 + l11)) { break L92; }
    }
    L100: {
     L101: {
      if (l3 <= -1) { break L101; }
      l11 = 1L;
      break L100;
     }
     L102: {
      if (l3 + Integer.MIN_VALUE >= 2147483616) { break L102; }
      l11 = 2L;
      break L100;
     }
     l11 = (l3 + Integer.MIN_VALUE < 2147483632) ? 3L : 4L;
    }
    if (l9 == l11) { break L56; }
    L103: {
     L104: {
      if ((l3 = (int) b[((int) (l12 = l10 + l11)) - 58912]) <= -1) { break L104; }
      l13 = 1L;
      break L103;
     }
     L105: {
      if (l3 + Integer.MIN_VALUE >= 2147483616) { break L105; }
      l13 = 2L;
      break L103;
     }
     l13 = (l3 + Integer.MIN_VALUE < 2147483632) ? 3L : 4L;
    }
    if (l9 == (l11 = l13 + l11)) { break L56; }
    L106: {
     L107: {
      if ((l3 = (int) b[((int) (l12 = l12 + l13)) - 58912]) <= -1) { break L107; }
      l13 = 1L;
      break L106;
     }
     L108: {
      if (l3 + Integer.MIN_VALUE >= 2147483616) { break L108; }
      l13 = 2L;
      break L106;
     }
     l13 = (l3 + Integer.MIN_VALUE < 2147483632) ? 3L : 4L;
    }
    if (l9 == (l11 = l13 + l11)) { break L56; }
    L109: {
     L110: {
      if ((l3 = (int) b[((int) (l12 + l13)) - 58912]) <= -1) { break L110; }
      l13 = 1L;
      break L109;
     }
     L111: {
      if (l3 + Integer.MIN_VALUE >= 2147483616) { break L111; }
      l13 = 2L;
      break L109;
     }
     l13 = (l3 + Integer.MIN_VALUE < 2147483632) ? 3L : 4L;
    }
    if (l9 != (l13 + l11)) { break L56; }
   }
   if ((l11 = Words.get64(b, ((int) (l4 + 48L)) - 58912)) == 0L) { break L56; }
   L112: {
    L113: {
     if ((l3 = (int) b[((int) (l12 = Words.get64(b, ((int) (l4 + 40L)) - 58912))) - 58912]) <= -1) { break L113; }
     l13 = 1L;
     break L112;
    }
    L114: {
     if (l3 + Integer.MIN_VALUE >= 2147483616) { break L114; }
     l13 = 2L;
     break L112;
    }
    l13 = (l3 + Integer.MIN_VALUE < 2147483632) ? 3L : 4L;
   }
   L115: {
    if (l11 == l13) { break L115; }
    L116: {
     L117: {
      if ((l19 = (int) b[((int) (l15 = l12 + l13)) - 58912]) <= -1) { break L117; }
      l14 = 1L;
      break L116;
     }
     L118: {
      if (l19 + Integer.MIN_VALUE >= 2147483616) { break L118; }
      l14 = 2L;
      break L116;
     }
     l14 = (l19 + Integer.MIN_VALUE < 2147483632) ? 3L : 4L;
    }
    if (l11 == (l13 = l14 + l13)) { break L115; }
    L119: {
     L120: {
      if ((l19 = (int) b[((int) (l15 = l15 + l14)) - 58912]) <= -1) { break L120; }
      l14 = 1L;
      break L119;
     }
     L121: {
      if (l19 + Integer.MIN_VALUE >= 2147483616) { break L121; }
      l14 = 2L;
      break L119;
     }
     l14 = (l19 + Integer.MIN_VALUE < 2147483632) ? 3L : 4L;
    }
    if (l11 == (l13 = l14 + l13)) { break L115; }
    L122: {
     L123: {
      if ((l19 = (int) b[((int) (l15 = l15 + l14)) - 58912]) <= -1) { break L123; }
      l14 = 1L;
      break L122;
     }
     L124: {
      if (l19 + Integer.MIN_VALUE >= 2147483616) { break L124; }
      l14 = 2L;
      break L122;
     }
     l14 = (l19 + Integer.MIN_VALUE < 2147483632) ? 3L : 4L;
    }
    if (l11 == (l13 = l14 + l13)) { break L115; }
    L125: {
     L126: {
      if ((l19 = (int) b[((int) (l15 = l15 + l14)) - 58912]) <= -1) { break L126; }
      l14 = 1L;
      break L125;
     }
     L127: {
      if (l19 + Integer.MIN_VALUE >= 2147483616) { break L127; }
      l14 = 2L;
      break L125;
     }
     l14 = (l19 + Integer.MIN_VALUE < 2147483632) ? 3L : 4L;
    }
    if (l11 == (l13 = l14 + l13)) { break L115; }
    L128: {
     L129: {
      if ((l19 = (int) b[((int) (l15 = l15 + l14)) - 58912]) <= -1) { break L129; }
      l14 = 1L;
      break L128;
     }
     L130: {
      if (l19 + Integer.MIN_VALUE >= 2147483616) { break L130; }
      l14 = 2L;
      break L128;
     }
     l14 = (l19 + Integer.MIN_VALUE < 2147483632) ? 3L : 4L;
    }
    if (l11 == (l13 = l14 + l13)) { break L115; }
    L131: {
     L132: {
      if ((l19 = (int) b[((int) (l15 + l14)) - 58912]) <= -1) { break L132; }
      l14 = 1L;
      break L131;
     }
     L133: {
      if (l19 + Integer.MIN_VALUE >= 2147483616) { break L133; }
      l14 = 2L;
      break L131;
     }
     l14 = (l19 + Integer.MIN_VALUE < 2147483632) ? 3L : 4L;
    }
    if (l11 != (l14 + l13)) { break L115; }
    l18 = 0;
    exit = 1; break PART;
   }
   L134: {
    L135: {
     if (l3 <= -1) { break L135; }
     l13 = 1L;
     break L134;
    }
    L136: {
     if (l3 + Integer.MIN_VALUE >= 2147483616) { break L136; }
     l13 = 2L;
     break L134;
    }
    l13 = (l3 + Integer.MIN_VALUE < 2147483632) ? 3L : 4L;
   }
   if (l11 == l13) { break L56; }
   L137: {
    L138: {
     if ((l3 = (int) b[((int) (l14 = l12 + l13)) - 58912]) <= -1) { break L138; }
     l12 = 1L;
     break L137;
    }
    L139: {
     if (l3 + Integer.MIN_VALUE >= 2147483616) { break L139; }
     l12 = 2L;
     break L137;
    }
    l12 = (l3 + Integer.MIN_VALUE < 2147483632) ? 3L : 4L;
   }
   if (l11 == (l13 = l12 + l13)) { break L56; }
   L140: {
    L141: {
     if ((l3 = (int) b[((int) (l14 = l14 + l12)) - 58912]) <= -1) { break L141; }
     l12 = 1L;
     break L140;
    }
    L142: {
     if (l3 + Integer.MIN_VALUE >= 2147483616) { break L142; }
     l12 = 2L;
     break L140;
    }
    l12 = (l3 + Integer.MIN_VALUE < 2147483632) ? 3L : 4L;
   }
   if (l11 == (l13 = l12 + l13)) { break L56; }
   L143: {
    L144: {
     if ((l3 = (int) b[((int) (l14 = l14 + l12)) - 58912]) <= -1) { break L144; }
     l12 = 1L;
     break L143;
    }
    L145: {
     if (l3 + Integer.MIN_VALUE >= 2147483616) { break L145; }
     l12 = 2L;
     break L143;
    }
    l12 = (l3 + Integer.MIN_VALUE < 2147483632) ? 3L : 4L;
   }
   if (l11 == (l13 = l12 + l13)) { break L56; }
   L146: {
    L147: {
     if ((l3 = (int) b[((int) (l14 = l14 + l12)) - 58912]) <= -1) { break L147; }
     l12 = 1L;
     break L146;
    }
    L148: {
     if (l3 + Integer.MIN_VALUE >= 2147483616) { break L148; }
     l12 = 2L;
     break L146;
    }
    l12 = (l3 + Integer.MIN_VALUE < 2147483632) ? 3L : 4L;
   }
   if (l11 == (l13 = l12 + l13)) { break L56; }
   L149: {
    L150: {
     if ((l3 = (int) b[((int) (l14 = l14 + l12)) - 58912]) <= -1) { break L150; }
     l12 = 1L;
     break L149;
    }
    L151: {
     if (l3 + Integer.MIN_VALUE >= 2147483616) { break L151; }
     l12 = 2L;
     break L149;
    }
    l12 = (l3 + Integer.MIN_VALUE < 2147483632) ? 3L : 4L;
   }
   if (l11 == (l13 = l12 + l13)) { break L56; }
   L152: {
    L153: {
     if ((l3 = (int) b[((int) (l14 = l14 + l12)) - 58912]) <= -1) { break L153; }
     l12 = 1L;
     break L152;
    }
    L154: {
     if (l3 + Integer.MIN_VALUE >= 2147483616) { break L154; }
     l12 = 2L;
     break L152;
    }
    l12 = (l3 + Integer.MIN_VALUE < 2147483632) ? 3L : 4L;
   }
   if (l11 == (l13 = l12 + l13)) { break L56; }
   L155: {
    L156: {
     if ((l3 = (int) b[((int) (l14 + l12)) - 58912]) <= -1) { break L156; }
     l12 = 1L;
     break L155;
    }
    L157: {
     if (l3 + Integer.MIN_VALUE >= 2147483616) { break L157; }
     l12 = 2L;
     break L155;
    }
    l12 = (l3 + Integer.MIN_VALUE < 2147483632) ? 3L : 4L;
   }
   if (l11 != (l12 + l13)) { break L56; }
   l18 = 0;
   exit = 1; break PART;
  }
 }
 m.kept[0] = l3;
 m.kept[1] = l9;
 m.kept[2] = l11;
 m.kept[3] = l12;
 m.kept[4] = l13;
 m.kept[5] = l14;
 m.kept[6] = l15;
 m.kept[7] = l16;
 m.kept[8] = l18;
 m.kept[9] = l19;
 return exit;
}

static void f207(State m, long l0, long l1, long l2, int l3, long l4, long l5, long l6, long l7) {
 final byte[] b = m.bytes;
 long l8 = 0;
 long l9 = 0;
 long l10 = 0;
 long l11 = 0;
 long l12 = 0;
 long l13 = 0;
 long l14 = 0;
 long l15 = 0;
 long l16 = 0;
 long l17 = 0;
 int l18 = 0;
 int l19 = 0;
 int l20 = 0;
 int l21 = 0;
 L1: {
  L2: {
   L3: {
    final int x55 = f207_1(m, l1, l2, l3, l4, l5, l6, l7, l8, l9, l10, l11, l12, l13, l14, l18, l19, l20, l21);
    l3 = (int) m.kept[0];
    l8 = m.kept[1];
    l9 = m.kept[2];
    l10 = m.kept[3];
    l11 = m.kept[4];
    l12 = m.kept[5];
    l13 = m.kept[6];
    l14 = m.kept[7];
    l18 = (int) m.kept[8];
    l19 = (int) m.kept[9];
    l20 = (int) m.kept[10];
    l21 = (int) m.kept[11];
    switch (x55) {
    case 1: break L1;
    case 2: break L2;
    case 3: break L3;
    }
    l10 = Words.get64(b, ((int) l4) - 58912);
    final int x158 = f207_2(m, l3, l4, l5, l9, l10, l11, l12, l13, l14, l15, l16, l18, l19);
    l3 = (int) m.kept[0];
    l9 = m.kept[1];
    l11 = m.kept[2];
    l12 = m.kept[3];
    l13 = m.kept[4];
    l14 = m.kept[5];
    l15 = m.kept[6];
    l16 = m.kept[7];
    l18 = (int) m.kept[8];
    l19 = (int) m.kept[9];
    switch (x158) {
    case 1: break L2;
    }
    l3 = Core7.f211(m, 89296L, 2L, l10, l9);
    L159: {
     if (l18 != 0) { break L159; }
     if (l3 == 0) { break L159; }
     L160: {
      L161: {
       if ((l18 = (int) b[((int) l10) - 58912]) <= -1) { break L161; }
       l11 = 1L;
       break L160;
      }
      L162: {
       if (l18 + Integer.MIN_VALUE >= 2147483616) { break L162; }
       l11 = 2L;
       break L160;
      }
      l11 = (l18 + Integer.MIN_VALUE < 2147483632) ? 3L : 4L;
     }
     L163: {
      if (l9 == l11) { break L163; }
      L164: {
       L165: {
        if ((l3 = (int) b[((int) (l12 = l10 + l11)) - 58912]) <= -1) { break L165; }
        l13 = 1L;
        break L164;
       }
       L166: {
        if (l3 + Integer.MIN_VALUE >= 2147483616) { break L166; }
        l13 = 2L;
        break L164;
       }
       l13 = (l3 + Integer.MIN_VALUE < 2147483632) ? 3L : 4L;
      }
      if (l9 == (l11 = l13 + l11)) { break L163; }
      L167: {
       L168: {
        if ((l3 = (int) b[((int) (l12 + l13)) - 58912]) <= -1) { break L168; }
        l13 = 1L;
        break L167;
       }
       L169: {
        if (l3 + Integer.MIN_VALUE >= 2147483616) { break L169; }
        l13 = 2L;
        break L167;
       }
       l13 = (l3 + Integer.MIN_VALUE < 2147483632) ? 3L : 4L;
      }
      if (l9 != (l13 + l11)) { break L163; }
      if (l5 == 1L) { break L163; }
      if ((l11 = Words.get64(b, ((int) (l4 + 48L)) - 58912)) == 0L) { break L163; }
      L170: {
       L171: {
        if ((l3 = (int) b[((int) (l12 = Words.get64(b, ((int) (l4 + 40L)) - 58912))) - 58912]) <= -1) { break L171; }
        l13 = 1L;
        break L170;
       }
       L172: {
        if (l3 + Integer.MIN_VALUE >= 2147483616) { break L172; }
        l13 = 2L;
        break L170;
       }
       l13 = (l3 + Integer.MIN_VALUE < 2147483632) ? 3L : 4L;
      }
      if (l11 == l13) { break L163; }
      L173: {
       L174: {
        if ((l3 = (int) b[((int) (l14 = l12 + l13)) - 58912]) <= -1) { break L174; }
        l12 = 1L;
        break L173;
       }
       L175: {
        if (l3 + Integer.MIN_VALUE >= 2147483616) { break L175; }
        l12 = 2L;
        break L173;
       }
       l12 = (l3 + Integer.MIN_VALUE < 2147483632) ? 3L : 4L;
      }
      if (l11 == (l13 = l12 + l13)) { break L163; }
      L176: {
       L177: {
        if ((l3 = (int) b[((int) (l14 + l12)) - 58912]) <= -1) { break L177; }
        l12 = 1L;
        break L176;
       }
       L178: {
        if (l3 + Integer.MIN_VALUE >= 2147483616) { break L178; }
        l12 = 2L;
        break L176;
       }
       l12 = (l3 + Integer.MIN_VALUE < 2147483632) ? 3L : 4L;
      }
      if (l5 + Long.MIN_VALUE < -9223372036854775805L) { break L163; }
      if (l11 != (l12 + l13)) { break L163; }
      if ((l11 = Words.get64(b, ((int) (l4 + 88L)) - 58912)) == 0L) { break L163; }
      L179: {
       L180: {
        if ((l3 = (int) b[((int) (l12 = Words.get64(b, ((int) (l4 + 80L)) - 58912))) - 58912]) <= -1) { break L180; }
        l13 = 1L;
        break L179;
       }
       L181: {
        if (l3 + Integer.MIN_VALUE >= 2147483616) { break L181; }
        l13 = 2L;
        break L179;
       }
       l13 = (l3 + Integer.MIN_VALUE < 2147483632) ? 3L : 4L;
      }
      if (l11 == l13) { break L163; }
      L182: {
       L183: {
        if ((l3 = (int) b[((int) (l14 = l12 + l13)) - 58912]) <= -1) { break L183; }
        l12 = 1L;
        break L182;
       }
       L184: {
        if (l3 + Integer.MIN_VALUE >= 2147483616) { break L184; }
        l12 = 2L;
        break L182;
       }
       l12 = (l3 + Integer.MIN_VALUE < 2147483632) ? 3L : 4L;
      }
      if (l11 == (l13 = l12 + l13)) { break L163; }
      L185: {
       L186: {
        if ((l3 = (int) b[((int) (l14 = l14 + l12)) - 58912]) <= -1) { break L186; }
        l12 = 1L;
        break L185;
       }
       L187: {
        if (l3 + Integer.MIN_VALUE >= 2147483616) { break L187; }
        l12 = 2L;
        break L185;
       }
       l12 = (l3 + Integer.MIN_VALUE < 2147483632) ? 3L : 4L;
      }
      if (l11 == (l13 = l12 + l13)) { break L163; }
      L188: {
       L189: {
        if ((l3 = (int) b[((int) (l14 + l12)) - 58912]) <= -1) { break L189; }
        l12 = 1L;
        break L188;
       }
       L190: {
        if (l3 + Integer.MIN_VALUE >= 2147483616) { break L190; }
        l12 = 2L;
        break L188;
       }
       l12 = (l3 + Integer.MIN_VALUE < 2147483632) ? 3L : 4L;
      }
      if (l5 != 3L) { break L163; }
      if (l11 != (l12 + l13)) { break L163; }
      l18 = 0;
      break L2;
     }
     L191: {
      L192: {
       if (l18 <= -1) { break L192; }
       l11 = 1L;
       break L191;
      }
      L193: {
       if (l18 + Integer.MIN_VALUE >= 2147483616) { break L193; }
       l11 = 2L;
       break L191;
      }
      l11 = (l18 + Integer.MIN_VALUE < 2147483632) ? 3L : 4L;
     }
     if (l9 == l11) { break L159; }
     L194: {
      L195: {
       if ((l18 = (int) b[((int) (l13 = l10 + l11)) - 58912]) <= -1) { break L195; }
       l10 = 1L;
       break L194;
      }
      L196: {
       if (l18 + Integer.MIN_VALUE >= 2147483616) { break L196; }
       l10 = 2L;
       break L194;
      }
      l10 = (l18 + Integer.MIN_VALUE < 2147483632) ? 3L : 4L;
     }
     if (l9 == (l11 = l10 + l11)) { break L159; }
     L197: {
      L198: {
       if ((l18 = (int) b[((int) (l13 + l10)) - 58912]) <= -1) { break L198; }
       l10 = 1L;
       break L197;
      }
      L199: {
       if (l18 + Integer.MIN_VALUE >= 2147483616) { break L199; }
       l10 = 2L;
       break L197;
      }
      l10 = (l18 + Integer.MIN_VALUE < 2147483632) ? 3L : 4L;
     }
     if (l9 != (l10 + l11)) { break L159; }
     if (l5 == 1L) { break L159; }
     if ((l9 = Words.get64(b, ((int) (l4 + 48L)) - 58912)) == 0L) { break L159; }
     L200: {
      L201: {
       if ((l18 = (int) b[((int) (l11 = Words.get64(b, ((int) (l4 + 40L)) - 58912))) - 58912]) <= -1) { break L201; }
       l10 = 1L;
       break L200;
      }
      L202: {
       if (l18 + Integer.MIN_VALUE >= 2147483616) { break L202; }
       l10 = 2L;
       break L200;
      }
      l10 = (l18 + Integer.MIN_VALUE < 2147483632) ? 3L : 4L;
     }
     if (l9 == l10) { break L159; }
     L203: {
      L204: {
       if ((l18 = (int) b[((int) (l13 = l11 + l10)) - 58912]) <= -1) { break L204; }
       l11 = 1L;
       break L203;
      }
      L205: {
       if (l18 + Integer.MIN_VALUE >= 2147483616) { break L205; }
       l11 = 2L;
       break L203;
      }
      l11 = (l18 + Integer.MIN_VALUE < 2147483632) ? 3L : 4L;
     }
     if (l9 == (l10 = l11 + l10)) { break L159; }
     L206: {
      L207: {
       if ((l18 = (int) b[((int) (l13 = l13 + l11)) - 58912]) <= -1) { break L207; }
       l11 = 1L;
       break L206;
      }
      L208: {
       if (l18 + Integer.MIN_VALUE >= 2147483616) { break L208; }
       l11 = 2L;
       break L206;
      }
      l11 = (l18 + Integer.MIN_VALUE < 2147483632) ? 3L : 4L;
     }
     if (l9 == (l10 = l11 + l10)) { break L159; }
     L209: {
      L210: {
       if ((l18 = (int) b[((int) (l13 + l11)) - 58912]) <= -1) { break L210; }
       l11 = 1L;
       break L209;
      }
      L211: {
       if (l18 + Integer.MIN_VALUE >= 2147483616) { break L211; }
       l11 = 2L;
       break L209;
      }
      l11 = (l18 + Integer.MIN_VALUE < 2147483632) ? 3L : 4L;
     }
     if (l5 + Long.MIN_VALUE < -9223372036854775805L) { break L159; }
     if (l9 != (l11 + l10)) { break L159; }
     if ((l9 = Words.get64(b, ((int) (l4 + 88L)) - 58912)) == 0L) { break L159; }
     L212: {
      L213: {
       if ((l18 = (int) b[((int) (l11 = Words.get64(b, ((int) (l4 + 80L)) - 58912))) - 58912]) <= -1) { break L213; }
       l10 = 1L;
       break L212;
      }
      L214: {
       if (l18 + Integer.MIN_VALUE >= 2147483616) { break L214; }
       l10 = 2L;
       break L212;
      }
      l10 = (l18 + Integer.MIN_VALUE < 2147483632) ? 3L : 4L;
     }
     if (l9 == l10) { break L159; }
     L215: {
      L216: {
       if ((l18 = (int) b[((int) (l13 = l11 + l10)) - 58912]) <= -1) { break L216; }
       l11 = 1L;
       break L215;
      }
      L217: {
       if (l18 + Integer.MIN_VALUE >= 2147483616) { break L217; }
       l11 = 2L;
       break L215;
      }
      l11 = (l18 + Integer.MIN_VALUE < 2147483632) ? 3L : 4L;
     }
     if (l9 == (l10 = l11 + l10)) { break L159; }
     L218: {
      L219: {
       if ((l18 = (int) b[((int) (l13 + l11)) - 58912]) <= -1) { break L219; }
       l11 = 1L;
       break L218;
      }
      L220: {
       if (l18 + Integer.MIN_VALUE >= 2147483616) { break L220; }
       l11 = 2L;
       break L218;
      }
      l11 = (l18 + Integer.MIN_VALUE < 2147483632) ? 3L : 4L;
     }
     if (l5 != 3L) { break L159; }
     if (l9 != (l11 + l10)) { break L159; }
     l18 = 0;
     break L2;
    }
    l9 = l4 + 20L;
    l10 = l5;
    L221: while (true) {
     L222: {
      if ((b[((int) (l9 + -4L)) - 58912] & 0xff) != 1) { break L222; }
      if (Words.get32(b, ((int) l9) - 58912) != 32) { break L3; }
     }
     l9 = l9 + 40L;
     if ((l10 = l10 + -1L) != 0L) { continue L221; }
     break L221;
    }
    if (l5 + Long.MIN_VALUE < -9223372036854775805L) { break L3; }
    l17 = (l16 = l4 + (l5 * 40L)) + -40L;
    l10 = l4;
    l12 = l5;
    L223: {
     L224: {
      L225: while (true) {
       L226: {
        if ((l12 = l12 + -1L) != 0L) { break L226; }
        l18 = 0;
        if ((l9 = Words.get64(b, ((int) (l16 + -32L)) - 58912)) == 0L) { break L2; }
        L227: {
         L228: {
          if ((l3 = (int) b[((int) (l11 = Words.get64(b, ((int) l17) - 58912))) - 58912]) <= -1) { break L228; }
          l10 = 1L;
          break L227;
         }
         L229: {
          if (l3 + Integer.MIN_VALUE >= 2147483616) { break L229; }
          l10 = 2L;
          break L227;
         }
         l10 = (l3 + Integer.MIN_VALUE < 2147483632) ? 3L : 4L;
        }
        if (l9 == l10) { break L2; }
        L230: {
         L231: {
          if ((l3 = (int) b[((int) (l13 = l11 + l10)) - 58912]) <= -1) { break L231; }
          l11 = 1L;
          break L230;
         }
         L232: {
          if (l3 + Integer.MIN_VALUE >= 2147483616) { break L232; }
          l11 = 2L;
          break L230;
         }
         l11 = (l3 + Integer.MIN_VALUE < 2147483632) ? 3L : 4L;
        }
        if (l9 == (l10 = l11 + l10)) { break L2; }
        L233: {
         L234: {
          if ((l3 = (int) b[((int) (l13 = l13 + l11)) - 58912]) <= -1) { break L234; }
          l11 = 1L;
          break L233;
         }
         L235: {
          if (l3 + Integer.MIN_VALUE >= 2147483616) { break L235; }
          l11 = 2L;
          break L233;
         }
         l11 = (l3 + Integer.MIN_VALUE < 2147483632) ? 3L : 4L;
        }
        if (l9 == (l10 = l11 + l10)) { break L2; }
        L236: {
         if ((l3 = (int) b[((int) (l13 + l11)) - 58912]) <= -1) { break L236; }
         l11 = 1L;
         break L223;
        }
        if (l3 + Integer.MIN_VALUE >= 2147483616) { break L224; }
        l11 = 2L;
        break L223;
       }
       if ((l9 = Words.get64(b, ((int) (l10 + 8L)) - 58912)) == 0L) { break L3; }
       L237: {
        L238: {
         if ((l18 = (int) b[((int) (l13 = Words.get64(b, ((int) l10) - 58912))) - 58912]) <= -1) { break L238; }
         l11 = 1L;
         break L237;
        }
        L239: {
         if (l18 + Integer.MIN_VALUE >= 2147483616) { break L239; }
         l11 = 2L;
         break L237;
        }
        l11 = (l18 + Integer.MIN_VALUE < 2147483632) ? 3L : 4L;
       }
       if (l9 == l11) { break L3; }
       L240: {
        L241: {
         if ((l18 = (int) b[((int) (l14 = l13 + l11)) - 58912]) <= -1) { break L241; }
         l13 = 1L;
         break L240;
        }
        L242: {
         if (l18 + Integer.MIN_VALUE >= 2147483616) { break L242; }
         l13 = 2L;
         break L240;
        }
        l13 = (l18 + Integer.MIN_VALUE < 2147483632) ? 3L : 4L;
       }
       if (l9 == (l15 = l13 + l11)) { break L3; }
       L243: {
        L244: {
         if ((l18 = (int) b[((int) (l13 = l14 + l13)) - 58912]) <= -1) { break L244; }
         l11 = 1L;
         break L243;
        }
        L245: {
         if (l18 + Integer.MIN_VALUE >= 2147483616) { break L245; }
         l11 = 2L;
         break L243;
        }
        l11 = (l18 + Integer.MIN_VALUE < 2147483632) ? 3L : 4L;
       }
       if (l9 == (l14 = l11 + l15)) { break L3; }
       L246: {
        L247: {
         if ((l18 = (int) b[((int) (l13 + l11)) - 58912]) <= -1) { break L247; }
         l11 = 1L;
         break L246;
        }
        L248: {
         if (l18 + Integer.MIN_VALUE >= 2147483616) { break L248; }
         l11 = 2L;
         break L246;
        }
        l11 = (l18 + Integer.MIN_VALUE < 2147483632) ? 3L : 4L;
       }
       l10 = l10 + 40L;
       if (l9 == (l11 + l14)) { continue L225; }
       break L3;
      }
     }
     l11 = (l3 + Integer.MIN_VALUE < 2147483632) ? 3L : 4L;
    }
    if (l9 == (l11 + l10)) { break L2; }
   }
   l9 = l4 + 20L;
   L249: while (true) {
    L250: {
     if ((b[((int) (l9 + -4L)) - 58912] & 0xff) != 1) { break L250; }
     if ((l18 = Words.get32(b, ((int) l9) - 58912)) == 26464) { break L250; }
     if (l18 != 45) { break L1; }
    }
    l9 = l9 + 40L;
    if ((l5 = l5 + -1L) != 0L) { continue L249; }
    break L249;
   }
   if (Core7.f213(m, l1, l2) == 0) { break L1; }
   l18 = 2;
  }
  Words.put64(b, ((int) l0) - 58912, 1L);
  Words.put32(b, ((int) (l0 + 9L)) - 58912, 0);
  b[((int) (l0 + 8L)) - 58912] = (byte) l18;
  Words.put32(b, ((int) (l0 + 12L)) - 58912, 0);
  Words.put64(b, ((int) (l0 + 24L)) - 58912, l7);
  Words.put64(b, ((int) (l0 + 16L)) - 58912, l6);
  m.g0 = l8;
  return;
 }
 Words.put64(b, ((int) l0) - 58888, 0L);
 Words.put64(b, ((int) l0) - 58896, 0L);
 Words.put64(b, ((int) l0) - 58904, 0L);
 Words.put64(b, ((int) l0) - 58912, 0L);
 m.g0 = l8;
}
}
