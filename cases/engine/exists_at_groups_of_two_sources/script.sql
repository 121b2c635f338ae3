SET SCALE 2 ROUNDING HALF_UP;
INPUT "T" ("id" INTEGER, "k" INTEGER, "v" INTEGER) KEY ("id");
INPUT "S" ("id" INTEGER, "k" INTEGER, "v" INTEGER) KEY ("id");
INPUT "R" ("id" INTEGER, "a" INTEGER, "b" INTEGER) KEY ("id");
CREATE TABLE "U" AS
  SELECT "t"."k" AS "k", "s"."v" AS "v", COUNT(*) AS "n"
  FROM "T" AS "t"
  LEFT JOIN "S" AS "s" ON "t"."id" = "s"."id"
  GROUP BY "t"."k", "s"."v"
  HAVING NOT EXISTS (SELECT 1 FROM "R" AS "r" WHERE "r"."a" = "t"."k" AND "r"."b" = "s"."v");
EXPORT "U";
