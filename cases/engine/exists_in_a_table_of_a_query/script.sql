SET SCALE 2 ROUNDING HALF_UP;
INPUT "T" ("id" INTEGER, "k" INTEGER, "v" INTEGER) KEY ("id");
INPUT "S" ("id" INTEGER, "k" INTEGER, "w" TEXT) KEY ("id");
CREATE TABLE "V" AS
  SELECT "t"."k" + 10 AS "k"
  FROM "T" AS "t";
CREATE TABLE "U" AS
  SELECT "s"."id" AS "id"
  FROM "S" AS "s"
  WHERE EXISTS (SELECT 1 FROM "V" AS "v" WHERE "v"."k" = "s"."k");
EXPORT "U";
