SET SCALE 2 ROUNDING HALF_UP;
INPUT "T" ("id" INTEGER, "k" INTEGER, "v" INTEGER) KEY ("id");
CREATE TABLE "U" AS
  SELECT "from"."id" AS "a ""quoted"" name", "from"."k" AS "with, a comma", "from"."v" AS "SELECT", 1 AS "Größe"
  FROM "T" AS "from"
  WHERE "from"."id" = 1;
EXPORT "U";
