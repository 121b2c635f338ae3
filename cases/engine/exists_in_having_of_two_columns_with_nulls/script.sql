SET SCALE 2 ROUNDING HALF_UP;
INPUT "T" ("id" INTEGER, "k" INTEGER, "v" INTEGER) KEY ("id");
INPUT "S" ("id" INTEGER, "k" INTEGER, "v" INTEGER) KEY ("id");
CREATE TABLE "U" AS
  SELECT "t"."k" AS "k", "t"."v" AS "v", COUNT(*) AS "n"
  FROM "T" AS "t"
  GROUP BY "t"."k", "t"."v"
  HAVING EXISTS (SELECT 1 FROM "S" AS "s" WHERE "s"."k" = "t"."k" AND "t"."v" = "s"."v");
EXPORT "U";
