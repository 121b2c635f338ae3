SET SCALE 2 ROUNDING HALF_UP;
INPUT "T" ("id" INTEGER, "k" INTEGER, "v" INTEGER) KEY ("id");
CREATE TABLE "U" AS
  SELECT "t"."k" AS "k", SUM("t"."v") AS "s"
  FROM "T" AS "t"
  WHERE "t"."v" > 0
  GROUP BY "t"."k";
EXPORT "U";
INPUT "S" ("k" INTEGER, "name" TEXT) KEY ("k");
CREATE TABLE "V" AS
  SELECT "s"."k" AS "k", "s"."name" AS "name", "u"."s" AS "s"
  FROM "S" AS "s"
  INNER JOIN "U" AS "u" ON "u"."k" = "s"."k";
