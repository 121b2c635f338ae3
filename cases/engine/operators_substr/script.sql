SET SCALE 2 ROUNDING HALF_UP;
INPUT "X" ("id" INTEGER, "a" TEXT, "b" TEXT) KEY ("id");
CREATE TABLE "U" AS
  SELECT "x"."id" AS "id", SUBSTR("x"."a", 2) AS "a", SUBSTR("x"."a", 2, 2) AS "b", SUBSTR("x"."a", 1, 0) AS "c", SUBSTR("x"."a", 5, 3) AS "d", SUBSTR("x"."a", 9) AS "e", SUBSTR("x"."b", 2, 1000000000) AS "f"
  FROM "X" AS "x";
EXPORT "U";
