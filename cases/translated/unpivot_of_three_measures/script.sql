SET SCALE 6 ROUNDING HALF_UP;
INPUT "x" ("k" TEXT, "v" INTEGER, "u" INTEGER, "w" INTEGER, "n1" TEXT) KEY ("k");
CREATE TABLE "R" AS
  SELECT "a"."k" AS "k", 'v' AS "c", "a"."v" AS "m"
  FROM "x" AS "a"
  WHERE "a"."v" IS NOT NULL
  UNION ALL
  SELECT "a"."k" AS "k", 'u' AS "c", "a"."u" AS "m"
  FROM "x" AS "a"
  WHERE "a"."u" IS NOT NULL
  UNION ALL
  SELECT "a"."k" AS "k", 'w' AS "c", "a"."w" AS "m"
  FROM "x" AS "a"
  WHERE "a"."w" IS NOT NULL;
EXPORT "R" ORDER BY "k", "c";
