SET SCALE 6 ROUNDING HALF_UP;
INPUT "x" ("k" TEXT, "u" INTEGER) KEY ("k");
INPUT "y" ("k" TEXT, "v" INTEGER) KEY ("k");
CREATE TABLE "R" AS
  SELECT "a$0"."k" AS "k", "a$0"."u" AS "u", "a$1"."v" AS "v"
  FROM "x" AS "a$0"
  LEFT JOIN "y" AS "a$1" ON "a$1"."k" = "a$0"."k"
  WHERE "a$1"."v" IS NULL OR "a$0"."u" > "a$1"."v";
EXPORT "R" ORDER BY "k";
