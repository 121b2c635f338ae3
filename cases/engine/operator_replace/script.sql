SET SCALE 2 ROUNDING HALF_UP;
INPUT "X" ("id" INTEGER, "a" TEXT, "b" TEXT) KEY ("id");
CREATE TABLE "U" AS
  SELECT "x"."id" AS "id", REPLACE("x"."a", "x"."b", 'TT') AS "a", REPLACE("x"."a", 'é', '') AS "b", REPLACE("x"."a", '', 'z') AS "c", REPLACE("x"."a", "x"."b", NULL) AS "d"
  FROM "X" AS "x";
EXPORT "U";
