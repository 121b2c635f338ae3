SET SCALE 6 ROUNDING HALF_UP;
INPUT "T" ("k" TEXT, "i" INTEGER, "n" NUMBER, "s" TEXT, "b" BOOLEAN, "d" DATE, "p" PERIOD) KEY ("k");
CREATE TABLE "the total" AS
  SELECT COUNT(*) AS "n"
  FROM "T" AS "t";
EXPORT "the total";
