SET SCALE 2 ROUNDING HALF_UP;
INPUT "X" ("id" INTEGER, "a" TEXT, "b" TEXT) KEY ("id");
CREATE TABLE "U" AS
  SELECT "x"."id" AS "id", "x"."a" = 'aaaa' AS "a", "x"."a" < 'b' AS "b", "x"."a" > "x"."b" AS "c", 'Z' < 'a' AS "d", 'z' < 'é' AS "e", '10' < '9' AS "f"
  FROM "X" AS "x";
EXPORT "U";
