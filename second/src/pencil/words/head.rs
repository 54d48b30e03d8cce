//! What stands over a page of trails, and over each of them.

/// The letters, once for a page.
pub const LETTERS: &str = "\
letters here, and in the class rules (INTLREG Part 3, 2021):
  L, l, z, b1, b2  the same, there in m, here in cm
  D0               T, the draught, there in m, here in cm
  H                the wave height, there in m, here in cm; n = 0.85H
  zL               ZL, the top of the tank, there in m, here in cm
  S                s or S, the spacing, there in m, here in mm
  T                t, a thickness, there in mm, here in hundredths of a mm
  W                w, a section modulus, there in cm³, here in tenths of a cm³
  A                Ash, a shear area, there in cm², here in hundredths of a cm²
  P                p, a pressure, there in kN/m², here in mPa
  q                p·s, a line load, there in kN/m, here in N/m
  K, K2            1000 times k and k2
  βb, βs, η        the same, here in hundredths
  σ1               the same, in N/mm²
  M, ZB, ZDB       MH in kNm, ZB and ZDB in cm³
  R                1000000 times M/ZB, or M/ZDB
  X                what a thickness has over a fixed part; its unit is beside it
the designer enters k, βb, βs, η, σ1, M, ZB and ZDB; all else is the rules' own.
of two equal loads that of the lower source decides.
";

/// The heading, by kind from 1 on.
pub const HEADINGS: [&str; 8] = [
    "member #: kind 1, bottom plate, transverse framing",
    "member #: kind 2, bottom plate, longitudinal framing",
    "member #: kind 3, inner bottom plate, transverse framing",
    "member #: kind 4, inner bottom plate, longitudinal framing",
    "member #: kind 5, bottom longitudinal",
    "member #: kind 6, floor",
    "member #: kind 7, bottom transverse",
    "member #: kind 8, centre or side girder",
];
