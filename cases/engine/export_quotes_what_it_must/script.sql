SET SCALE 2 ROUNDING HALF_UP;
INPUT "T" ("id" INTEGER, "k" INTEGER, "v" INTEGER) KEY ("id");
CREATE TABLE "U" AS
  SELECT 'ab' AS "a", 'a
b' AS "b", 'a,b' AS "c", 'a"b' AS "d", ' a' AS "e", 'a''b' AS "f", 'a;b' AS "g", '	' AS "h"
  FROM "T" AS "t"
  WHERE "t"."id" = 1;
EXPORT "U";
