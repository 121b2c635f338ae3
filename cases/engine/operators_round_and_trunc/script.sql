SET SCALE 2 ROUNDING HALF_UP;
INPUT "N" ("id" INTEGER, "i" INTEGER, "j" INTEGER, "n" NUMBER, "m" NUMBER) KEY ("id");
CREATE TABLE "U" AS
  SELECT "n"."id" AS "id", ROUND("n"."n", 1) AS "a", TRUNC("n"."n", 1) AS "b", ROUND("n"."n", 0) AS "c", ROUND("n"."i", -1) AS "d", TRUNC("n"."i", -1) AS "e", ROUND("n"."n", 9) AS "f", TRUNC("n"."n", -9) AS "g"
  FROM "N" AS "n";
EXPORT "U";
