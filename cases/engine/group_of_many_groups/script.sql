SET SCALE 2 ROUNDING HALF_UP;
INPUT "T" ("id" INTEGER, "k" INTEGER) KEY ("id");
CREATE TABLE "G" AS
  SELECT "t"."k" AS "k", COUNT(*) AS "n", SUM("t"."id") AS "s"
  FROM "T" AS "t"
  GROUP BY "t"."k";
CREATE TABLE "U" AS
  SELECT COUNT(*) AS "groups", MIN("g"."n") AS "i", MAX("g"."n") AS "j", SUM("g"."s") AS "s", COUNT("g"."k") AS "k"
  FROM "G" AS "g";
EXPORT "U";
