SET SCALE 2 ROUNDING HALF_UP;
INPUT "T" ("id" INTEGER, "k" TEXT, "v" INTEGER) KEY ("id");
CREATE TABLE "U" AS
  SELECT "t"."id" AS "id",
    SUM("t"."v") OVER (PARTITION BY "t"."k", "t"."k" ORDER BY "t"."id", "t"."k", "t"."id" DESC ROWS BETWEEN UNBOUNDED PRECEDING AND CURRENT ROW) AS "w"
  FROM "T" AS "t";
EXPORT "U" ORDER BY "id";
