SET SCALE 2 ROUNDING HALF_UP;
INPUT "T" ("id" INTEGER, "k" TEXT, "v" INTEGER) KEY ("id");
INPUT "S" ("s" INTEGER, "k" TEXT, "w" INTEGER) KEY ("s");
CREATE TABLE "U" AS
  SELECT "t"."id" AS "id", "s"."s" AS "s",
    SUM("s"."w") OVER (PARTITION BY "t"."k" ORDER BY "t"."id" DESC ROWS BETWEEN UNBOUNDED PRECEDING AND CURRENT ROW) AS "w",
    RANK() OVER (ORDER BY "s"."w" DESC) AS "r"
  FROM "T" AS "t"
  INNER JOIN "S" AS "s" ON "s"."k" = "t"."k";
EXPORT "U" ORDER BY "id", "s";
