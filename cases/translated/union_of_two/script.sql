SET SCALE 6 ROUNDING HALF_UP;
INPUT "x" ("k" TEXT, "n" INTEGER, "v" INTEGER) KEY ("k", "n");
INPUT "y" ("k" TEXT, "n" INTEGER, "v" INTEGER) KEY ("k", "n");
CREATE TABLE "R" AS
  SELECT "a"."k" AS "k", "a"."n" AS "n", "a"."v" AS "v"
  FROM "x" AS "a"
  UNION ALL
  SELECT "a"."k" AS "k", "a"."n" AS "n", "a"."v" AS "v"
  FROM "y" AS "a"
  WHERE NOT EXISTS (SELECT 1 FROM "x" AS "b" WHERE "b"."k" = "a"."k" AND "b"."n" = "a"."n");
EXPORT "R" ORDER BY "k", "n";
