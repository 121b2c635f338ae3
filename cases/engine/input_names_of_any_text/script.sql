SET SCALE 2 ROUNDING HALF_UP;
INPUT "T" ("a ""b""" TEXT, "Größe, m" NUMBER) KEY ("a ""b""");
EXPORT "T";
