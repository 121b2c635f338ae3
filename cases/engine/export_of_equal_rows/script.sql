SET SCALE 2 ROUNDING HALF_UP;
INPUT "X" ("id" INTEGER, "s" TEXT, "n" NUMBER, "b" BOOLEAN, "d" DATE, "p" PERIOD) KEY ("id");
CREATE TABLE "U" AS
  SELECT "x"."b" AS "b", "x"."d" AS "d"
  FROM "X" AS "x"
  UNION ALL
  SELECT "x"."b" AS "b", "x"."d" AS "d"
  FROM "X" AS "x"
  WHERE "x"."id" < 3;
EXPORT "U" ORDER BY "d";
