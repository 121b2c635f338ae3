SET SCALE 2 ROUNDING HALF_UP;
INPUT "B" ("id" INTEGER, "a" BOOLEAN, "b" BOOLEAN) KEY ("id");
CREATE TABLE "U" AS
  SELECT "b"."id" AS "id", "b"."a" AND "b"."b" AS "a", "b"."a" OR "b"."b" AS "o", "b"."a" XOR "b"."b" AS "x", NOT "b"."a" AS "n"
  FROM "B" AS "b";
EXPORT "U";
