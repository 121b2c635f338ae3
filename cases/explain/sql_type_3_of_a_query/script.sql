SET SCALE 6 ROUNDING HALF_UP;
INPUT "T" ("k" TEXT, "i" INTEGER, "n" NUMBER, "s" TEXT, "b" BOOLEAN, "d" DATE, "p" PERIOD) KEY ("k");
CREATE TABLE "U" AS
  SELECT "t"."k" AS "k", "t"."n" AS "n"
  FROM "T" AS "t";
CREATE TABLE "V" AS
  SELECT "u"."K" AS "k", "u"."n" AS "n"
  FROM "U" AS "u";
