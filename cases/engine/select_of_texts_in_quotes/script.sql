SET SCALE 2 ROUNDING HALF_UP;
INPUT "T" ("id" INTEGER, "k" INTEGER, "v" INTEGER) KEY ("id");
CREATE TABLE "U" AS
  SELECT 'a, b' AS "a", 'say "no"' AS "b", 'two
lines' AS "c", '' AS "d", ' x ' AS "e", 'été' AS "f"
  FROM "T" AS "t"
  WHERE "t"."id" = 1;
EXPORT "U";
