SET SCALE 2 ROUNDING HALF_UP;
INPUT "N" ("id" INTEGER, "i" INTEGER, "j" INTEGER, "n" NUMBER, "m" NUMBER) KEY ("id");
CREATE TABLE "U" AS
  SELECT "n"."id" AS "id", BETWEEN("n"."i", "n"."j", 7) AS "a", BETWEEN("n"."n", 2, 2.25) AS "b", BETWEEN(4, 5, NULL) AS "c", BETWEEN(5, 7, 1) AS "d"
  FROM "N" AS "n";
EXPORT "U";
