SET SCALE 2 ROUNDING HALF_UP;
INPUT "T" ("id" INTEGER, "k" INTEGER, "v" INTEGER) KEY ("id");
CREATE TABLE "U" AS
  SELECT (2 + 3) * 4 AS "a", 2 - (3 - 4) AS "b", 12 / (2 / 3) AS "c", NOT (TRUE OR TRUE) AS "d", ((((1)))) AS "e"
  FROM "T" AS "t"
  WHERE "t"."id" = 1;
EXPORT "U";
