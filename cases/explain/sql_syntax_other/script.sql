SET SCALE 6 ROUNDING HALF_UP;
INPUT "T" ("k" TEXT, "i" INTEGER, "n" NUMBER, "s" TEXT, "b" BOOLEAN, "d" DATE, "p" PERIOD) KEY ("k");
CREATE TABLE "U" AS
  SELECT "t"."k" "k", COUNT(*) AS "n"
  FROM "T" AS "t";
